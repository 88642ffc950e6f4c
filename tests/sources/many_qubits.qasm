OPENQASM 2.0;
qreg q[4096];
CX q[0],q[4095];
