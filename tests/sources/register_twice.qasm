OPENQASM 2.0;
qreg q[2];
qreg q[1];
