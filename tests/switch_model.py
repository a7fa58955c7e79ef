"""The meter's switch as a table: the transitions and modes of IEC 62056-6-2 (class 70), written
from the standard and not from the code. A model runs over the lines of a journal, for tests that
compare a meter with it. It has no scripts and no schedules, so samples and moments do not switch
it."""

import copy

DISCONNECTED, CONNECTED, READY = 0, 1, 2

# The transitions, by the letters of the standard's figure: trigger, state before, state after.
TRANSITIONS = {
    "a": ("remote reconnect", DISCONNECTED, CONNECTED),
    "b": ("remote disconnect", CONNECTED, DISCONNECTED),
    "c": ("remote disconnect", READY, DISCONNECTED),
    "d": ("remote reconnect", DISCONNECTED, READY),
    "e": ("manual reconnect", READY, CONNECTED),
    "f": ("manual disconnect", CONNECTED, READY),
    "g": ("local disconnect", CONNECTED, READY),
    "h": ("local reconnect", READY, CONNECTED),
}
# The transitions of each control mode.
MODES = {0: "", 1: "bcdefg", 2: "abcefg", 3: "bcdeg", 4: "abceg", 5: "bcdefgh", 6: "bcdegh"}

# The states that a trigger asks for: there it succeeds and changes nothing. In the modes with
# transition d a remote reconnection is done in Ready for reconnection, too.
TARGETS = {
    "remote disconnect": {DISCONNECTED},
    "remote reconnect": {CONNECTED},
    "manual disconnect": {DISCONNECTED, READY},
    "manual reconnect": {CONNECTED},
}
SUCCESS, TEMPORARY_FAILURE, READ_WRITE_DENIED = 0, 2, 3

SWITCH = "70 000060030AFF"
REGISTER = "3 0100010700FF 2"
PUBLIC = "16"


class SwitchModel:
    """The switch, the last import sample and the clock of a meter after some events."""

    def __init__(self, opening):
        """Reads the lines of an opening (docs/TRACE.md)."""
        words = dict(line.split(" ", 1) for line in opening if " " in line)
        self.state, self.mode, self.value = (int(words[name]) for name in ("state", "mode", "value"))
        self.now = None if words["now"] == "-" else int(words["now"])

    def copy(self):
        return copy.copy(self)

    def is_on(self):
        return self.state == CONNECTED

    def pull(self, trigger):
        """The result of a trigger, which acts if the mode has a transition for it."""
        for letter in MODES[self.mode]:
            of, before, after = TRANSITIONS[letter]
            if (of, before) == (trigger, self.state):
                self.state = after
                return SUCCESS
        waits = trigger == "remote reconnect" and "d" in MODES[self.mode] and self.state == READY
        return SUCCESS if waits or self.state in TARGETS[trigger] else TEMPORARY_FAILURE

    def write_mode(self, mode):
        """The result of a write of the mode; mode 0 is accepted only in Connected."""
        if mode == 0 and self.state != CONNECTED:
            return TEMPORARY_FAILURE
        self.mode = mode
        return SUCCESS

    def call(self, words):
        """The result of a SET of the mode or an ACTION of the switch."""
        if words[1] == PUBLIC:
            return READ_WRITE_DENIED
        assert " ".join(words[2:4]) == SWITCH, words
        if words[0] == "execute":
            return self.pull({"1": "remote disconnect", "2": "remote reconnect"}[words[4]])
        assert words[4:6] == ["4", "0"] and words[6][:3] == "160", words
        return self.write_mode(int(words[6][3:]))

    def tick(self, moment):
        if self.now is not None and moment < self.now:
            return f"stale {self.now}"
        self.now = moment
        return "ran 0"

    def apply(self, line):
        """Applies an event. Returns its reply as trace_player prints it, but only `sampled` of
        samples: the limiters are not modelled."""
        words = line.split()
        if words[0] == "button":
            return f"code {self.pull('manual disconnect' if self.is_on() else 'manual reconnect')}"
        if words[0] == "moment":
            return self.tick(int(words[1]))
        if words[0] in ("samples", "pairs"):
            imported = words[1:] if words[0] == "samples" else words[1::2]
            self.value = int(imported[-1]) if imported else self.value
            return "sampled"
        assert words[0] in ("set", "execute"), f"no event of a journal: {line}"
        return f"code {self.call(words)}"

    def read(self, event):
        """The reply to a GET of the supply, the state, the mode or the last import sample."""
        place = event.split(" ", 2)[2].rsplit(" ", 1)[0]
        return "value " + {
            f"{SWITCH} 2": f"03{self.is_on():02X}",
            f"{SWITCH} 3": f"16{self.state:02X}",
            f"{SWITCH} 4": f"16{self.mode:02X}",
            REGISTER: f"06{self.value:08X}",
        }[place]

    def line(self, number, reply):
        """The line of an event as trace_player prints it."""
        return f"{number}: {reply}; state {self.state}; supply {'on' if self.is_on() else 'off'}"
