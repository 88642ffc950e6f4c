OPENQASM 2.0; // two registers
qreg a[1];qreg empty[0];

  qreg b[1]; CX a[0] ,b[ 0 ];
