// Declarations to paste: gates that other tools write and the header lacks. Each stands on the header's gates alone, but for
// c4x, which also calls c3x and c3sqrtx. A declaration goes between the include and the first call of its gate.
OPENQASM 2.0;
include "qelib1.inc";

// Names that are older, or used by hand.
gate u0(gamma) a { U(0,0,0) a; }
gate cnot c,t { cx c,t; }
gate toffoli a,b,c { ccx a,b,c; }
gate fredkin a,b,c { cswap a,b,c; }
gate v a { sx a; }
gate vdg a { sxdg a; }

// One qubit, turned by theta about an axis in the plane of x and y.
gate r(theta,phi) a { u3(theta,phi-pi/2,pi/2-phi) a; }

// One qubit controls a gate on the other.
gate cu(theta,phi,lambda,gamma) c,t {
  p(gamma) c; p((lambda+phi)/2) c; p((lambda-phi)/2) t; cx c,t; u(-theta/2,0,-(phi+lambda)/2) t; cx c,t; u(theta/2,phi,0) t; }
gate cs c,t { cp(pi/2) c,t; }
gate csdg c,t { cp(-pi/2) c,t; }
gate csx c,t { h t; cp(pi/2) c,t; h t; }
gate csxdg c,t { h t; cp(-pi/2) c,t; h t; }

// Two qubits.
gate ryy(theta) a,b { rx(pi/2) a; rx(pi/2) b; cx a,b; rz(theta) b; cx a,b; rx(-pi/2) a; rx(-pi/2) b; }
gate rzx(theta) a,b { h b; cx a,b; rz(theta) b; cx a,b; h b; }
gate ecr a,b { h b; cx a,b; rz(pi/4) b; cx a,b; h b; x a; h b; cx a,b; rz(-pi/4) b; cx a,b; h b; }
gate dcx a,b { cx a,b; cx b,a; }
gate iswap a,b { s a; s b; h a; cx a,b; cx b,a; h b; }

// Three qubits and more. rccx and rc3x differ from ccx and c3x in phases.
gate ccz a,b,c { h c; ccx a,b,c; h c; }
gate rccx a,b,c { h c; t c; cx b,c; tdg c; cx a,c; t c; cx b,c; tdg c; h c; }
gate rc3x a,b,c,d {
  h d; t d; cx c,d; tdg d; h d; cx a,d; t d; cx b,d; tdg d; cx a,d; t d; cx b,d; tdg d; h d; t d; cx c,d; tdg d; h d; }
gate c3x a,b,c,d {
  h d; p(pi/8) a; p(pi/8) b; p(pi/8) c; p(pi/8) d;
  cx a,b; p(-pi/8) b; cx a,b; cx b,c; p(-pi/8) c; cx a,c; p(pi/8) c; cx b,c; p(-pi/8) c; cx a,c;
  cx c,d; p(-pi/8) d; cx b,d; p(pi/8) d; cx c,d; p(-pi/8) d; cx a,d; p(pi/8) d; cx c,d; p(-pi/8) d;
  cx b,d; p(pi/8) d; cx c,d; p(-pi/8) d; cx a,d; h d; }
gate c3sqrtx a,b,c,d {
  h d; cp(pi/8) a,d; h d; cx a,b; h d; cp(-pi/8) b,d; h d; cx a,b; h d; cp(pi/8) b,d; h d;
  cx b,c; h d; cp(-pi/8) c,d; h d; cx a,c; h d; cp(pi/8) c,d; h d;
  cx b,c; h d; cp(-pi/8) c,d; h d; cx a,c; h d; cp(pi/8) c,d; h d; }
gate c4x a,b,c,d,e {
  h e; cp(pi/2) d,e; h e; c3x a,b,c,d; h e; cp(-pi/2) d,e; h e; c3x a,b,c,d; c3sqrtx a,b,c,e; }

// A call of each.
qreg q[5];
u0(1) q[0];
cnot q[0],q[1];
toffoli q[0],q[1],q[2];
fredkin q[0],q[1],q[2];
v q[0];
vdg q[0];
r(0.1,0.2) q[0];
cu(0.1,0.2,0.3,0.4) q[0],q[1];
cs q[0],q[1];
csdg q[0],q[1];
csx q[0],q[1];
csxdg q[0],q[1];
ryy(0.1) q[0],q[1];
rzx(0.1) q[0],q[1];
ecr q[0],q[1];
dcx q[0],q[1];
iswap q[0],q[1];
ccz q[0],q[1],q[2];
rccx q[0],q[1],q[2];
rc3x q[0],q[1],q[2],q[3];
c3x q[0],q[1],q[2],q[3];
c3sqrtx q[0],q[1],q[2],q[3];
c4x q[0],q[1],q[2],q[3],q[4];
