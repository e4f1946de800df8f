# A time above the clock is taken (19): the host would read before the write.
# The examples of document 01 would refuse it too, so they are taken out; what the proofs say of the test goes with it. The fact that the theorem needs
# of the test is then missing.
# expect: integrity proofs/RefineAdds.antt
rm -f crates/rules/proofs/Marked.antt crates/rules/proofs/Empty.antt && echo "pub mod Refused" >crates/rules/proofs/Lib.antt
sed -i 's/in_time t clock = both (leb 1 t.0) (leb t.0 clock.0)/in_time t clock = both (leb 1 t.0) (leb t.0 t.0)/' crates/rules/specs/Adds.antt
sed -i 's/both_true (leb 1 t₂.0) (leb t₂.0 st.clock.0)/both_true (leb 1 t₂.0) (leb t₂.0 t₂.0)/' crates/integrity/proofs/RefineAdds.antt
