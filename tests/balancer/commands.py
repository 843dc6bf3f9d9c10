"""Operators' commands word by word: each form cut short, too long and with a wrong word in each place, and what names stand for."""

from __future__ import annotations

from .cases import case, expect_equal
from .clients import ask_operator
from .farms import TABLE, Ending, Farm, ends_well, listen, section, server
from .operators import BAD_NUMBER, MISSING, NO_BACKEND, NO_SERVER, OUT_OF_RANGE, TWO_64, UNKNOWN, farm_of_two, own_events

# Each command in each form. The number is 7.
FORMS = [
    "set server web/a state ready",
    "set server web/a state drain",
    "set server web/a state maint",
    "set server web/a health up",
    "set server web/a health down",
    "enable server web/a",
    "disable server web/a",
    "set weight web/a 7",
    "set server web/a weight 7",
    "set maxconn server web/a 7",
    "set maxpins server web/a 7",
    "plan backend web",
    "show plan web",
    "show table web",
    "show journal web",
    "stop",
    "enable server web/web",
    "plan backend a",
]

# The first fault from the left.
WRONG_WORDS = [
    ("set weight web/a x y", BAD_NUMBER), (f"set weight web/a {TWO_64} y", BAD_NUMBER), ("set weight web x", UNKNOWN),
    ("set weight web", UNKNOWN), ("set server web/a speed", UNKNOWN), ("set server web/a health stopping", UNKNOWN),
    ("set server web/a state", MISSING), ("set server web/a weight", MISSING), ("set maxconn web/a 7", UNKNOWN),
    ("show pins", UNKNOWN), ("stopping", UNKNOWN), ("Stop", UNKNOWN), ("stop stop", UNKNOWN), ("plan web", UNKNOWN),
]  # fmt: skip

# A tab or a carriage return within a line is part of its word. A server is two names with one slash between.
WRONG_NAMES = [
    "stop\t", "plan\tbackend web", "enable server web/a\r;", "\t", "enable server web", "enable server /", "enable server web/",
    "enable server /a", "enable server web/a/b", "enable server web//a", "enable server -/a", "enable server web/-",
    "enable server web/a,b", "enable server w%b/a",
]  # fmt: skip

# A number is decimal digits, and less than 2^64.
WRONG_NUMBERS = [
    f"set weight web/a {TWO_64}", f"set server web/a weight {TWO_64}", f"set maxconn server web/a {TWO_64}",
    f"set maxpins server web/a {TWO_64}", f"set weight web/a {'9' * 44}", "set weight web/a -1", "set weight web/a +1",
    "set weight web/a 0x7", "set weight web/a 7%",
]  # fmt: skip


@case
def each_command_is_one_neither_shorter_nor_longer(farm: Farm) -> None:
    balancer = farm_of_two(farm)
    for form in FORMS:
        words = form.split()
        for count in range(1, len(words)):
            cut = " ".join(words[:count])
            expect_equal(cut, balancer.tell(cut), MISSING)
        expect_equal(f"{form} a", balancer.tell(f"{form} a"), UNKNOWN)
    expect_equal("the journal", own_events(balancer), [])
    ends_well(balancer, checked=True)


@case
def a_wrong_word_is_told_in_each_place(farm: Farm) -> None:
    balancer = farm_of_two(farm)
    for form in FORMS:
        words = form.split()
        for place, word in enumerate(words):
            line = "".join(f"{it} " for it in [*words[:place], "x!", *words[place + 1 :]])
            expect_equal(line, balancer.tell(line), BAD_NUMBER if word == "7" else UNKNOWN)
    expect_equal("the journal", own_events(balancer), [])
    ends_well(balancer, checked=True)


@case
def the_first_fault_from_the_left_is_told(farm: Farm) -> None:
    balancer = farm_of_two(farm)
    rows = [*WRONG_WORDS, *((line, UNKNOWN) for line in WRONG_NAMES), *((line, BAD_NUMBER) for line in WRONG_NUMBERS)]
    for line, answer in rows:
        expect_equal(line, balancer.tell(line), answer)
    for line in ("", " ", ";", ";;;", " ; ;  ; "):
        expect_equal(f"no command in {line!r}", balancer.tell(line), "")
    unended = ask_operator(balancer.operators, b"enable server web/a\r", ends=True)
    expect_equal("a carriage return without a line feed behind it", unended, UNKNOWN.encode())
    expect_equal("the journal", own_events(balancer), [])
    answer = balancer.tell(f"set weight web/a {TWO_64 - 1}; set weight web/a {TWO_64}")
    expect_equal("the largest number, and one more", answer, OUT_OF_RANGE + BAD_NUMBER)
    ends_well(balancer, checked=True)


@case
def a_stop_between_other_commands_ends_the_program(farm: Farm) -> None:
    rows = [
        (";  stop ;; halt; plan   backend;stop", "\n" + UNKNOWN + MISSING + "\n", 0),
        ("set server web/a state drain;; stop; halt", "\n\n" + UNKNOWN, 1),
        ("stop;stop;".ljust(4096), "\n\n", 0),
    ]
    for line, answer, events in rows:
        balancer = farm.start(listen(farm.port(), server("a", farm.origin())))
        expect_equal("a line that is too long", balancer.tell("stop;stop;".ljust(4097)), UNKNOWN)
        expect_equal(line, balancer.tell(line), answer)
        due = Ending(0, f"closed web events {events} rising yes\n", balancer.errors())
        expect_equal(f"the end by {line}", balancer.wait(), due)


@case
def backends_and_servers_have_names_of_any_kind(farm: Farm) -> None:
    servers = [server(name, farm.origin()) for name in ("a", "web", "a.b_c-", "0")]
    balancer = farm.start(
        listen(farm.port(), *servers[:2]) + section("backend a") + section("backend w:80", servers[2]) + section("backend --", servers[3])
    )
    expect_equal("a plan", balancer.tell("plan backend a"), "pins 0 unplaced 0 moved 0\n\n")
    for line in ("enable server web/web", "disable server web/a", "disable server w:80/a.b_c-", "disable server --/0"):
        expect_equal(line, balancer.tell(line), "\n")
    expect_equal("events", balancer.events("web"), ["set server web/web state ready -> done", "set server web/a state maint -> done"])
    expect_equal("events of w:80", balancer.events("w:80"), ["set server w:80/a.b_c- state maint -> done"])
    expect_equal("events of --", balancer.events("--"), ["set server --/0 state maint -> done"])
    ends_well(balancer, "web", "a", "w:80", "--")


@case
def names_are_looked_up_a_backends_first(farm: Farm) -> None:
    servers = [server(name, farm.origin(), "maxpins 5") for name in ("a", "b")]
    balancer = farm.start(listen(farm.port(), *TABLE, *servers) + section("listen shop"))
    none = "pins 0 unplaced 0 moved 0\n\n"
    rows = [
        ("set weight web/b 257", OUT_OF_RANGE), ("set server web/b state drain", "\n"), ("plan backend web", none),
        ("plan backend shop", none), ("show table shop", "no table\n\n"), ("set server web/x state drain", NO_SERVER),
        ("set weight web/x 1", NO_SERVER), ("set weight shop/a 1", NO_SERVER), ("set weight other/a 1", NO_BACKEND),
        ("set weight other/x 1", NO_BACKEND), ("plan backend other", NO_BACKEND), ("show table Web", NO_BACKEND),
    ]  # fmt: skip
    for line, answer in rows:
        expect_equal(line, balancer.tell(line), answer)
    # The second server is off.
    plan = "stickyplan 1\nversion 1\nserver a cap 5 price 0\nserver b off\nend\n\n"
    expect_equal("the plan", balancer.tell("show plan web"), plan)
    due = ["set weight web/b 257 -> 11 OutOfRange", "set server web/b state drain -> done"]
    expect_equal("events of web", balancer.events("web")[:2], due)
    expect_equal("how many events", (len(balancer.events("web")), len(balancer.events("shop"))), (4, 2))
    ends_well(balancer, "web", "shop")


@case
def a_name_is_that_of_its_line_wherever_that_stands(farm: Farm) -> None:
    servers = [server(name, farm.origin()) for name in ("b", "a")]
    balancer = farm.start(section("backend shop") + listen(farm.port(), *servers))
    expect_equal("a server", balancer.tell("set server web/a state drain"), "\n")
    expect_equal("a server of another backend", balancer.tell("set server shop/a state drain"), NO_SERVER)
    plan = "stickyplan 1\nversion 1\nserver b cap 0 price 0\nserver a off\nend\n\n"
    expect_equal("the plan", balancer.tell("plan backend web; show plan web"), "pins 0 unplaced 0 moved 0\n\n" + plan)
    expect_equal("events of shop", balancer.events("shop"), [])
    ends_well(balancer, "shop", "web")
