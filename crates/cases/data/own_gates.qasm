// Gates of the file's own, with parameters, one in the body of the other.
OPENQASM 2.0;
gate turn(theta,phi) a { U(theta/2,phi,-phi) a; barrier a; U(-(theta/2)^2,sin(phi),0) a; }
gate link(angle) a,b { turn(angle,pi/4) a; CX a,b; turn(2*angle,-pi/4) b; CX b,a; }
gate idle a { }
qreg q[3];
qreg spare[1];
link(0.25) q[0],q[1];
link(pi/3+1e-1) q[1],q[2];
idle q;
turn(ln(2),0) spare;
CX q,spare[0];
