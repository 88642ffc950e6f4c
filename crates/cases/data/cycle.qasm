OPENQASM 2.0;
qreg q[4];
CX q[0],q[1];
CX q[1],q[2];
CX q[2],q[3];
CX q[3],q[0];
