"""What a terminal sends to its program for keys and for the mouse. Keys come as Plan 9 numbers them (keyboard(6))."""

from typing import Dict

from rio9.term import cells

ESCAPE = "\x1b"
F1 = 0xF001

# The keys whose sequence is another one in the mode of cursor keys, with its last letter.
CURSOR = {0xF00E: "A", 0xF800: "B", 0xF012: "C", 0xF011: "D"}
PLAIN: Dict[int, str] = {
    0x08: "\x7f",
    0x0A: "\r",
    0x7F: f"{ESCAPE}[3~",
    0xF00D: f"{ESCAPE}[1~",
    0xF018: f"{ESCAPE}[4~",
    0xF014: f"{ESCAPE}[2~",
    0xF00F: f"{ESCAPE}[5~",
    0xF013: f"{ESCAPE}[6~",
}
FUNCTION = ["OP", "OQ", "OR", "OS", "[15~", "[17~", "[18~", "[19~", "[20~", "[21~", "[23~", "[24~"]
PLAIN.update({F1 + at: ESCAPE + text for at, text in enumerate(FUNCTION)})
FIRST_OF_OTHERS, LAST_OF_OTHERS = 0xF000, 0xF8FF  # keys of Plan 9 that a terminal has no sequence for

WHEEL_UP, WHEEL_DOWN = 8, 16
BUTTON_CODES = {1: 0, 2: 1, 4: 2, WHEEL_UP: 64, WHEEL_DOWN: 65}
RELEASED, MOVED = 3, 32
FARTHEST = 223  # the last column and row that the older report of the mouse can tell


def of_key(key: str, is_cursor_mode: bool) -> str:
    """What a program gets for a key."""
    code = ord(key)
    if code in CURSOR:
        return f"{ESCAPE}{'O' if is_cursor_mode else '['}{CURSOR[code]}"
    if code in PLAIN:
        return PLAIN[code]
    return "" if FIRST_OF_OTHERS <= code <= LAST_OF_OTHERS else key


def of_paste(text: str, is_bracketed: bool) -> str:
    """What a program gets for a text that is put in."""
    typed = text.replace("\r\n", "\r").replace("\n", "\r").replace(ESCAPE, "")
    return f"{ESCAPE}[200~{typed}{ESCAPE}[201~" if is_bracketed else typed


def wants_mouse(screen: cells.Cells) -> bool:
    """Whether a program has asked for the mouse."""
    return any(screen.is_on(mode) for mode in (cells.MOUSE_PRESSES, cells.MOUSE_DRAGS, cells.MOUSE_MOVES))


def of_mouse(screen: cells.Cells, x: int, y: int, buttons: int, before: int) -> str:
    """What a program gets for an event of the mouse over a cell, behind one with other buttons."""
    changed = buttons ^ before
    if not changed:
        is_told = screen.is_on(cells.MOUSE_MOVES) or buttons and screen.is_on(cells.MOUSE_DRAGS)
        lowest = BUTTON_CODES.get(buttons & -buttons, RELEASED)
        return report(screen, MOVED + lowest, x, y, True) if is_told else ""
    told = ""
    for button, code in BUTTON_CODES.items():
        if changed & button and (buttons & button or button < WHEEL_UP):
            told += report(screen, code, x, y, bool(buttons & button))
    return told


def report(screen: cells.Cells, code: int, x: int, y: int, is_down: bool) -> str:
    """A report of the mouse, in the form that the program has asked for."""
    if screen.is_on(cells.MOUSE_SGR):
        return f"{ESCAPE}[<{code};{x + 1};{y + 1}{'M' if is_down else 'm'}"
    if x >= FARTHEST or y >= FARTHEST:
        return ""
    return f"{ESCAPE}[M" + "".join(chr(32 + number) for number in (code if is_down else RELEASED, x + 1, y + 1))
