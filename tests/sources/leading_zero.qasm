OPENQASM 2.0;
qreg q[02];
CX q[0],q[1];
