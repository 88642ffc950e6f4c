// A full adder: a and b and the carry that comes in; b becomes the sum, and the carry goes out.
OPENQASM 2.0;
include "qelib1.inc";
gate majority a,b,c { cx c,b; cx c,a; ccx a,b,c; }
gate unmajority a,b,c { ccx a,b,c; cx c,a; cx a,b; }
qreg entering[1];
qreg a[1];
qreg b[1];
qreg out[1];
creg sum[1];
creg carry[1];
x a[0];
x b[0];
majority entering[0],b[0],a[0];
cx a[0],out[0];
unmajority entering[0],b[0],a[0];
measure b -> sum;
measure out -> carry;
