"""What a check says of a goal that became false. The kit has no form of this for programs: a check ends with a status and says
`fn F: not proved`, whether a goal is false now or a proof only no longer fits. Which of the two it is stands in a sentence. All scripts
that try planted bugs read it here. .ci/test_refusals.py has sentences of each kind."""
import re

# What is said of a place in a file.
PLACE = re.compile(r"(?:note: )?(?:\./)?(\S+?):(\d+):\d+: ")
# An open goal of the function, or a value that doesn't fit.
FALSE_GOAL = re.compile(
    r"it is not proved that |the two (types|sides) (first )?differ"
    r"|`omega`: the goal does not follow|`search`: no proof of "
    # what `cc` says where the equations at hand don't give the goal
    r"|list the missing equation with its arguments"
)
# A name, a field or a file that is gone.
GONE = re.compile(r"is not in scope|is no name|has no field|has no `|was not admitted")
TYPES = re.compile(r"expected type `([^`]*)`, but this has type `([^`]*)")
SIGN = re.compile(r"◌[^\w\s`]+◌")
# What a goal is called: by the answer that has to prove it, or by the place that needs it.
NAMED = re.compile(r"error: `([\w-]+)`: (?=`)|\(`([\w-]+)`\)")
# The clause of a contract that a goal is of.
CLAUSE = re.compile(r"^(?:returns|panics)-clause-(\w+)$")


def is_of_one_shape(reason):
    """Whether the two types that it names differ by numbers and names alone, as far as it is printed."""
    types = TYPES.search(reason)
    if not types:
        return False
    wanted, found = SIGN.findall(types[1]), SIGN.findall(types[2])
    return found == wanted if reason[types.end():types.end() + 1] == "`" else found == wanted[:len(found)]


def shows_a_goal(line):
    """Whether a line of a check says that a goal became false, and not that a proof no longer fits."""
    return not GONE.search(line) and bool(FALSE_GOAL.search(line) or is_of_one_shape(line))


def goal_of(line):
    """The name of the goal that a line says became false, `a goal` if it has none; None if it says nothing of the kind."""
    if not shows_a_goal(line):
        return None
    named = NAMED.search(line)
    name = next(filter(None, named.groups()), "a goal") if named else "a goal"
    clause = CLAUSE.match(name)
    return clause[1] if clause else name


def places(lines):
    """The lines that say something of a place in a file."""
    return [line.strip() for line in lines if PLACE.match(line)]


def goals(lines):
    """The lines that say that a goal became false."""
    return [line for line in places(lines) if shows_a_goal(line)]


def is_read(lines):
    """Whether the front end took what was changed, so that proofs were tried."""
    return any(line.startswith("only=") for line in lines)


def are_proved(lines, count):
    """Whether a check of so many functions alone proved them all."""
    return any(re.match(rf"only={count} proved={count}\b", line) for line in lines)
