# Entry 4 takes a record of the tree (16): its parent's mark stays 0, and the old digest can be replayed.
# The examples of document 01 would refuse it too, so they are taken out; what the proofs say of the test goes with it. The fact that the theorem needs
# of the test is then missing.
# expect: integrity proofs/RefineEvicts.antt
rm -f crates/rules/proofs/Marked.antt crates/rules/proofs/Empty.antt && echo "pub mod Refused" >crates/rules/proofs/Lib.antt
sed -i 's/pick (eqb o deferred)/pick (eqb o o)/' crates/rules/specs/Evicts.antt
sed -i 's/(eqb o deferred)/(eqb o o)/' crates/rules/proofs/Refused.antt crates/integrity/proofs/RefineEvicts.antt
