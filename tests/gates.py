#!/usr/bin/env python3
"""Compares each gate that examples/gates.qasm declares with its matrix, up to a phase of the whole, and sees that each is
called there. The matrices are worked out in floats, from the ops that tests/front.py makes of one call.

    gates.py    a line for each gate that differs, and the counts
"""
import cmath
import math
import os
import re
import sys

import front

GATES = os.path.join(os.path.dirname(os.path.abspath(__file__)), "../examples/gates.qasm")
ANGLES = (0.3, 0.7, 1.1, 1.9)
WORDS = {"pi": math.pi, "sin": math.sin, "cos": math.cos, "tan": math.tan, "exp": math.exp, "ln": math.log, "sqrt": math.sqrt}


def turn(theta, phi, lam):
    """U(theta,phi,lambda)."""
    c, s = math.cos(theta / 2), math.sin(theta / 2)
    return [[c, -cmath.exp(1j * lam) * s], [cmath.exp(1j * phi) * s, cmath.exp(1j * (phi + lam)) * c]]


def identity(size):
    return [[float(i == j) for j in range(size)] for i in range(size)]


def product(a, b):
    return [[sum(x * b[k][j] for k, x in enumerate(row)) for j in range(len(b[0]))] for row in a]


def beside(a, b):
    """The gate a on the first qubits and b on the rest."""
    return [[x * y for x in row for y in other] for row in a for other in b]


def controlled(gate, controls=1):
    """The gate on the last qubits where each of the first ones is 1. The first qubit has the greatest weight in an index."""
    size = len(gate) << controls
    full = identity(size)
    for i, row in enumerate(gate):
        full[size - len(gate) + i][size - len(gate):] = row
    return full


def rotation(theta, pauli):
    """exp(-i theta/2 pauli), of a matrix whose square is 1."""
    unit = identity(len(pauli))
    return [[math.cos(theta / 2) * u - 1j * math.sin(theta / 2) * p for u, p in zip(*rows)] for rows in zip(unit, pauli)]


def expected():
    """The matrix of each gate at ANGLES."""
    x, y, z = [[0, 1], [1, 0]], [[0, -1j], [1j, 0]], [[1, 0], [0, -1]]
    s = [[1, 0], [0, 1j]]
    sx = [[(1 + 1j) / 2, (1 - 1j) / 2], [(1 - 1j) / 2, (1 + 1j) / 2]]
    conj = lambda m: [[complex(m[j][i]).conjugate() for j in range(len(m))] for i in range(len(m))]
    theta, phi, lam, gamma = ANGLES
    swap = [[1, 0, 0, 0], [0, 0, 1, 0], [0, 1, 0, 0], [0, 0, 0, 1]]
    about = [[math.cos(phi) * p + math.sin(phi) * q for p, q in zip(*rows)] for rows in zip(x, y)]
    phased = [[cmath.exp(1j * gamma) * w for w in row] for row in turn(theta, phi, lam)]
    root = math.sqrt(0.5)
    ecr = [[root * (p - q) for p, q in zip(*rows)] for rows in zip(beside(x, identity(2)), beside(y, x))]
    # The relative-phase forms of ccx and c3x.
    two_phased, three_phased = controlled(y, 2), controlled([[0, 1], [-1, 0]], 3)
    two_phased[5][5], three_phased[12][12], three_phased[13][13] = -1, 1j, -1j
    return {
        "u0": identity(2), "cnot": controlled(x), "toffoli": controlled(x, 2), "fredkin": controlled(swap),
        "v": sx, "vdg": conj(sx),
        "r": rotation(theta, about), "cu": controlled(phased), "cs": controlled(s), "csdg": controlled(conj(s)),
        "csx": controlled(sx), "csxdg": controlled(conj(sx)),
        "ryy": rotation(theta, beside(y, y)), "rzx": rotation(theta, beside(z, x)),
        "ecr": ecr, "dcx": product([[1, 0, 0, 0], [0, 0, 0, 1], [0, 0, 1, 0], [0, 1, 0, 0]], controlled(x)),
        "iswap": [[1, 0, 0, 0], [0, 0, 1j, 0], [0, 1j, 0, 0], [0, 0, 0, 1]],
        "ccz": controlled(z, 2), "rccx": two_phased, "rc3x": three_phased,
        "c3x": controlled(x, 3), "c3sqrtx": controlled(sx, 3), "c4x": controlled(x, 4),
    }


def value(text):
    return eval(text.replace("^", "**"), {"__builtins__": {}}, WORDS)


def matrix(ops, qubits):
    """The product of the ops."""
    made = identity(1 << qubits)
    for op in ops:
        if op[0] == "one":
            u = turn(*map(value, op[2]))
            step = beside(beside(identity(1 << op[1]), u), identity(1 << (qubits - 1 - op[1])))
        else:
            both = (1 << (qubits - 1 - op[1])) | (1 << (qubits - 1 - op[2]))
            step = [[-v if i & both == both else v for v in row] for i, row in enumerate(identity(1 << qubits))]
        made = product(step, made)
    return made


def same(a, b):
    """The matrices are equal but for one phase."""
    i, j = max(((i, j) for i in range(len(b)) for j in range(len(b))), key=lambda at: abs(b[at[0]][at[1]]))
    phase = a[i][j] / b[i][j]
    return abs(abs(phase) - 1) < 1e-9 and all(abs(v - phase * w) < 1e-9 for row, other in zip(a, b) for v, w in zip(row, other))


def main():
    with open(GATES, encoding="ascii") as file:
        text = file.read()
    declarations, calls = text.split("// A call of each.")
    wanted, failed = expected(), 0
    found = re.findall(r"^gate ([a-z0-9]+)(?:\(([^)]*)\))? ([a-z,]+) ", declarations, re.M)
    for name, params, args in found:
        qubits, angles = args.count(",") + 1, ",".join(map(str, ANGLES[: params.count(",") + 1])) if params else ""
        call = f"{name}({angles}) {','.join(f'q[{i}]' for i in range(qubits))};"
        ops = front.native(front.program(f"{declarations}qreg q[{qubits}];\n{call}\n".encode()))
        if name not in wanted or not same(matrix(ops, qubits), wanted[name]) or not re.search(rf"^{name}[ (]", calls, re.M):
            failed += 1
            print(f"FAILED: the gate {name}")
    missing = set(wanted) - {name for name, _, _ in found}
    print(f"{len(found) - failed} gates as their matrices, {failed + len(missing)} not")
    return 1 if failed or missing else 0


if __name__ == "__main__":
    sys.exit(front.deeply(main))
