"""How the program was built: what makes an overrun end it, or lead nowhere."""
import platform
import re
import shutil
import subprocess

from checks import Skipped, expect

from .support import SAMHOST

FUNCTIONS = ("say", "take_over", "list_sessions", "begin_again")  # some of its own, each in a file of its own


def output_of(*words):
    if shutil.which(words[0]) is None:
        raise Skipped(f"no {words[0]}")
    return subprocess.run(words, capture_output=True, text=True, check=True).stdout


def check_built_against_overruns(_folder):
    """samhost lies at a random place, its tables of calls are not written once it runs, its stack is guarded and not run, and copies have
    bounds, also of blocks whose size is only known as it runs."""
    header, segments, dynamic = (output_of("readelf", "-W", word, SAMHOST) for word in ("-h", "-l", "-d"))
    expect("DYN" in header, "its place is fixed")
    expect("GNU_RELRO" in segments and re.search(r"FLAGS.*NOW", dynamic), "its tables can be written")
    expect(re.search(r"GNU_STACK +\S+ \S+ \S+ \S+ \S+ RW +", segments), "its stack can be run")
    expect("PATH" not in re.sub(r"\[.*\]", "", dynamic), "it looks for libraries in folders of its own")
    names = output_of("readelf", "-W", "--dyn-syms", SAMHOST)
    expect("__stack_chk_fail" in names, "its stack has no guard")
    checked = set(re.findall(r"(__\w+_chk)@", names))
    expect({"__memcpy_chk", "__snprintf_chk"} <= checked, f"of the calls of its library these alone have bounds: {checked}")


def check_built_against_clashes_and_jumps(_folder):
    """Stacks that grow by much touch each page, and jumps by tables lead to the heads of functions."""
    if platform.machine() != "x86_64":
        raise Skipped("not x86-64, which has other instructions for it")
    code = output_of("objdump", "-d", "--no-show-raw-insn", SAMHOST)
    heads = {name: body.lstrip().partition("\t")[2] for name, body in re.findall(r"^\S+ <(\w+)>:\n(.*)$", code, re.MULTILINE)}
    found = [name for name in FUNCTIONS if name in heads]
    expect(found, f"this test is wrong: it has none of {FUNCTIONS}")
    wrong = {name: heads[name] for name in found if "endbr64" not in heads[name]}
    expect(not wrong, f"so functions begin: {wrong}")
    expect(re.search(r"sub +\$0x1000,%rsp\n.*or[ql] +\$0x0,\(%rsp\)", code), "no stack that grows by much touches each page")
