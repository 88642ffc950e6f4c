// Bernstein and Vazirani: the hidden string is 101, and one question to the oracle finds it.
OPENQASM 2.0;
include "qelib1.inc";
qreg asked[3];
qreg answer[1];
creg found[3];
x answer[0];
h asked;
h answer[0];
barrier asked,answer;
cx asked[0],answer[0];
cx asked[2],answer[0];
barrier asked,answer;
h asked;
measure asked -> found;
