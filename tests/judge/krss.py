"""Writes KRSS, the Lisp-like format that FaCT++ reads.

A file is a list of statements, among them:

    (defprimconcept n3)        n3 is a name of which nothing is known
    (defconcept C0 CONCEPT)    C0 is a name for the instances of CONCEPT, in which others may stand; so is a name n3
                               that is defined
    (defprimrole r8)           r8 is a role
    (implies_r r8 r9)          what r8 reaches r9 reaches too; not used here

A concept is *TOP*, *BOTTOM*, a name, (not C), (and C D ..), (some r8 C) or (all r8 C). An (and) of nothing is none.
"""

from picture import EXISTS, NAMES, ROLES


def name_concepts(name_set, form):
    return [form % name for name in range(NAMES) if name_set >> name & 1]


def concept(node):
    """What a row says, as a concept."""
    parts = name_concepts(node.wanted, "n%d") + name_concepts(node.excluded, "(not n%d)")
    if node.impossible:
        parts.append("*BOTTOM*")
    for kind, role, below in node.edges:
        parts.append(f"({'some' if kind == EXISTS else 'all'} r{role} {concept(below)})")
    if len(parts) > 1:
        return f"(and {' '.join(parts)})"
    return parts[0] if parts else "*TOP*"


def tbox(classes, definitions):
    """A file that declares or defines all names, declares all roles, and defines each class by its picture's root."""
    lines = [f"(defprimconcept n{name})" for name in range(NAMES) if name not in definitions]
    lines += [f"(defprimrole r{role})" for role in range(ROLES)]
    lines += [f"(defconcept n{name} {concept(root)})" for name, root in definitions.items()]
    lines += [f"(defconcept {name} {concept(root)})" for name, root in classes.items()]
    return "\n".join(lines) + "\n"
