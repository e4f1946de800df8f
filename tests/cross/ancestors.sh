# "Ancestor" includes the key itself (10).
# The examples of document 01 would refuse it too, so they are taken out; what the proofs say of the test goes with it. The fact that the theorem needs
# of the test is then missing.
# expect: integrity proofs/RefineAdds.antt
rm -f crates/rules/proofs/Marked.antt crates/rules/proofs/Empty.antt && echo "pub mod Refused" >crates/rules/proofs/Lib.antt
sed -i "s/Bool, false, leb/Bool, true, false, leb/" crates/rules/specs/Adds.antt
sed -i 's/pick (above pk k) (add_link/pick (pick (key_eq pk k) true (above pk k)) (add_link/' crates/rules/specs/Adds.antt
sed -i 's/by (above pk k) (add_side_lem/by (pick (key_eq pk k) true (above pk k)) (add_side_lem/' crates/rules/proofs/Refused.antt
sed -i 's/(above pk k) no_ancestor/(pick (key_eq pk k) true (above pk k)) no_ancestor/' crates/integrity/proofs/RefineAdds.antt
