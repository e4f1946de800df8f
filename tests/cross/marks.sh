# A link that is marked deferred is taken by its digest (13): an old value comes back.
# The examples of document 01 would refuse it too, so they are taken out; what the proofs say of the test goes with it. The fact that the theorem needs
# of the test is then missing.
# expect: integrity proofs/RefineAdds.antt
rm -f crates/rules/proofs/Marked.antt crates/rules/proofs/Empty.antt && echo "pub mod Refused" >crates/rules/proofs/Lib.antt
sed -i 's/pick lm (refuses marked_deferred st c)/pick false (refuses marked_deferred st c)/' crates/rules/specs/Adds.antt crates/integrity/proofs/RefineAdds.antt
sed -i 's/ lm marked_deferred / false marked_deferred /' crates/integrity/proofs/RefineAdds.antt
sed -i 's/(by lm (no marked_deferred refl)/(by false (no marked_deferred refl)/' crates/rules/proofs/Refused.antt
