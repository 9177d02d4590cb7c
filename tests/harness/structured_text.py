"""examples/plc_device.st, turned into Python statement by statement, so that it can play docs/vectors.txt.

What that leaves to a PLC is here: which datagram is an order (device_model.Device.read), Same and Say. No compiler of a
PLC is at hand: `doubtful` finds the names that one would refuse.
"""
import re

import device_model

STATEMENT = re.compile(r"\s*(?:IF (?P<if>.*?) THEN|ELSIF (?P<elsif>.*?) THEN|(?P<else>ELSE)\b|"
                       r"(?P<end>END_IF|END_CASE);|CASE (?P<case>\w+) OF|(?P<label>\w+):(?!=)|"
                       r"(?P<set>\w+) := (?P<value>.*?);|"
                       r"(?P<return>RETURN);|(?P<call>\w+\(.*?\));)", re.S)
PHASES = {name: name.upper().replace(" ", "_") for name in ("over", *device_model.ROWS)}
WORKS = {"": "NOTHING", "prepare": "PREPARE", "move": "DO_MOVE", "give up": "GIVE_UP"}

# Of IEC 61131-3, third edition: what no name may be, in whatever letters. First what the listing may use of that.
WORDS = """BOOL BYTE INT USINT UINT UDINT STRING ARRAY OF STRUCT END_STRUCT TYPE END_TYPE VAR RETAIN VAR_INPUT END_VAR
    FUNCTION_BLOCK END_FUNCTION_BLOCK METHOD PRIVATE PUBLIC END_METHOD IF THEN ELSIF ELSE END_IF CASE END_CASE FOR TO DO
    END_FOR RETURN AND OR NOT TRUE FALSE""".split()
RESERVED = {*WORDS, *"""
    WORD DWORD LWORD SINT DINT LINT ULINT REAL LREAL TIME LTIME DATE LDATE TIME_OF_DAY TOD LTOD DT LDT
    DATE_AND_TIME CHAR WCHAR WSTRING ANY VAR_OUTPUT VAR_IN_OUT VAR_TEMP VAR_GLOBAL VAR_EXTERNAL VAR_ACCESS
    VAR_CONFIG CONSTANT NON_RETAIN PERSISTENT AT REF REF_TO NULL FUNCTION END_FUNCTION PROGRAM END_PROGRAM CLASS
    END_CLASS INTERFACE END_INTERFACE EXTENDS IMPLEMENTS ABSTRACT FINAL PROTECTED INTERNAL OVERRIDE THIS SUPER
    NAMESPACE END_NAMESPACE USING CONFIGURATION RESOURCE TASK WITH ON STEP INITIAL_STEP END_STEP TRANSITION
    END_TRANSITION ACTION END_ACTION FROM BY WHILE END_WHILE REPEAT UNTIL END_REPEAT EXIT CONTINUE XOR MOD
    READ_ONLY READ_WRITE R_EDGE F_EDGE OVERLAP EN ENO ABS SQRT LN LOG EXP SIN COS TAN ASIN ACOS ATAN ADD MUL SUB
    DIV EXPT MOVE SHL SHR ROL ROR SEL MAX MIN LIMIT MUX GT GE EQ LE LT NE LEN LEFT RIGHT MID CONCAT INSERT DELETE
    REPLACE FIND TRUNC ROUND SR RS R_TRIG F_TRIG CTU CTD CTUD TP TON TOF ADR SIZEOF POINTER NEW""".split()}


def doubtful(text):
    """Names that are words of the language, or that nothing declares, or that two things have."""
    text = re.sub(r"\(\*.*?\*\)", "", text, flags=re.S)
    inside = re.compile(r"^METHOD .*?^END_METHOD", re.M | re.S)
    outer, methods = inside.sub("", text), inside.findall(text)
    shared = names_of(outer) + re.findall(r"^METHOD \w+ (\w+)", text, re.M)
    shared += re.findall(r"^(?:TYPE|FUNCTION_BLOCK) (\w+)", text, re.M)
    shared += [name for words in re.findall(r"^TYPE \w+ : \((.*)\);", text, re.M) for name in words.split(", ")]
    found = {name for name in map(str.upper, shared) if [*map(str.upper, shared)].count(name) > 1}
    for part in (outer, *methods):
        own = {*map(str.upper, names_of(part) + shared)}
        found |= own & RESERVED | {word.upper() for word in re.findall(r"\b[A-Za-z_]\w*", part)} - own - {*WORDS}
    return sorted(found)


def names_of(text):
    """The variables, or the members of a struct, that stand there."""
    return [name for names in re.findall(r"(\w+(?:, \w+)*) : (?!\()(?!STRUCT)", re.sub(r"METHOD .*", "", text))
            for name in names.split(", ")]


def expression(text):
    text = re.sub(r"(?<![<>:])=", "==", " ".join(text.split())).replace("<>", "!=")
    return re.sub(r"\b(AND|OR|NOT|TRUE|FALSE)\b", lambda word: {"TRUE": "True", "FALSE": "False"}.get(
        word[1], word[1].lower()), text)


def body_of(text, names):
    """The statements of a method, each as a line of Python."""
    lines, depth, cases, at = [f"global {', '.join(names)}"], 0, [], 0
    while text[at:].strip():
        found = STATEMENT.match(text, at)
        if not found:
            raise ValueError(f"no statement: {text[at:at + 60]}")
        at, kind = found.end(), found.lastgroup if found.lastgroup != "value" else "set"
        word = expression(found[kind])
        if kind in ("elsif", "else", "end"):
            depth -= 1 + (word == "END_CASE")
        if kind == "label":
            depth -= cases[-1][1]
        line = {"if": f"if {word}:", "elsif": f"elif {word}:", "else": "else:", "return": "return", "call": word,
                "label": f"{'elif' if cases and cases[-1][1] else 'if'} {cases[-1][0] if cases else ''} == {word}:",
                "set": f"{word} = {expression(found['value'] or '')}", "case": "if True:", "end": "pass"}[kind]
        lines.append("    " * depth + line)
        if kind == "case":
            cases.append([word, False])
        if kind == "label":
            cases[-1][1] = True
        depth += kind in ("if", "elsif", "else", "case", "label")
        if word == "END_CASE":
            cases.pop()
    return lines


class Plc:
    """What a text in Structured Text does, with its global variables."""

    def __init__(self, text):
        text = re.sub(r"\(\*.*?\*\)", "", text, flags=re.S)
        self.names = [name for block in re.findall(r"^VAR(?: RETAIN)?\n.*?^END_VAR", text, re.M | re.S)
                      for name in re.findall(r"^    (\w+) :", block, re.M)]
        types = re.findall(r"^TYPE \w+ : \((.*)\);", text, re.M)
        self.now = {word: word for words in types for word in words.split(", ")}
        self.now |= {"Same": lambda a, b: a == b, "Say": lambda word, number: self.said.append((word, number))}
        for name, inside in re.findall(r"^METHOD \w+ (\w+)[^\n]*\n(.*?)^END_METHOD", text, re.M | re.S):
            if name not in self.now:
                inputs = re.findall(r"(\w+) :", "".join(re.findall(r"VAR_INPUT(.*?)END_VAR", inside)))
                self.define(name, inputs, re.sub(r"VAR(?:_INPUT)?\b.*?END_VAR", "", inside, flags=re.S))

    def define(self, name, inputs, body):
        """A method of these statements."""
        lines = body_of(body, self.names)
        exec(f"def {name}({', '.join(inputs)}):\n    " + "\n    ".join(lines), self.now)

    def starts(self, last):
        """Its power has come back, and it had kept this number."""
        self.said = []
        self.now |= {"Last": last, "Phase": "OVER", "Doing": "NOTHING", "DoingNumber": 0, "Unheard": False, "Copies": 0,
                     "Asked": None, "IsAsked": False}
        self.now["Restart"]()

    def begin(self, state):
        """It has come to this state."""
        self.said = []
        values = {"Last": state.last, "CameFrom": state.controller, "Phase": PHASES[state.phase],
                  "Unheard": state.unheard, "Copies": 0, "Doing": WORKS[state.doing], "DoingNumber": state.doing_number,
                  "Asked": state.asked, "IsAsked": state.asked is not None}
        self.now |= {name: values[name] for name in self.names}

    def happens(self, state, event, *words):
        if event == "hear":
            self.hears(state, *words)
        else:
            self.now[{"cannot": "Cannot", "tick": "SayAgain"}.get(event, "Ended")]()

    def hears(self, state, sender, data):
        order = state.read(data)
        if order:
            word, number, asked = order
            self.now["Hear"]({"standby": "STANDBY", "go_2pc": "GO", "cancel": "CANCEL"}[word], number, asked, sender)
        elif state.is_reply(data):
            self.now["IsHeard"]()

    def is_in(self, state):
        """Whether it is in this state."""
        now = self.now
        return (now["Last"], now["Phase"], now["Doing"], now["Unheard"], now["CameFrom"]) == (
            state.last, PHASES[state.phase], WORKS[state.doing], state.unheard, state.controller) and (
            now["Asked"] if now["IsAsked"] else None) == state.asked and (
            not state.doing or now["DoingNumber"] == state.doing_number)

    def answers(self, device):
        """What it has said, as a datagram."""
        return b"".join(device_model.model.message(f"/device/{device}/{word.lower()}", number)
                        for word, number in self.said)
