"""Reads the texts of graphs and plans, as `flume plan` and `flume run` show them."""
import re


def without_comments(script):
    return re.sub(r'("(?:[^"\\\n]|\\.)*")|#[^\n]*', lambda it: it[1] or "", script)


def files_of(script):
    """The file of each input of a script, by the input's name."""
    form = r'\binput\s+(\w+)\s*:[^"]*?\bfrom\s+"((?:[^"\\\n]|\\.)*)"'
    return dict(re.findall(form, without_comments(script)))


def node_of(line):
    """A node of a graph: its number, kind, what it takes and reads, and the rest of its line."""
    form = r"(\d+) (source|flatten|do|group|operate) ((?:(?:with )?\d+(?:\.\d+)? )*)(.*)"
    found = re.fullmatch(form, line)
    if not found:
        raise ValueError(f"no node of a graph: {line}")
    takes = [it.partition(".")[0] for it in found[3].split()]
    reads = [it for it in takes if it != "with"]
    return {"number": found[1], "kind": found[2], "takes": takes, "reads": reads, "does": found[4]}


def output_of(line):
    """An output of the script, in a graph or in a plan."""
    found = re.fullmatch(r'output (\w+) reads ([\w.]+) to "(.*)"', line)
    if not found:
        raise ValueError(f"no output: {line}")
    return {"name": found[1], "reads": found[2], "file": found[3]}


def channel_of(stage, line):
    """Puts a channel into its stage."""
    found = re.fullmatch(r"in \d+ reads (\S+)(?: with (\S+))? does (.*)", line)
    if found:
        beside = {"with": found[2]} if found[2] else {}
        stage["in"].append({"reads": found[1], "does": found[3], **beside})
        return
    form = r"group \d+ (\S+)(?: lift (.*?))? takes ([\d. ]+) does (.*) gives ([\d. ]+)"
    found = re.fullmatch(form, line)
    if found:
        group = {"kind": "group", "name": found[1], "lift": found[2], "does": found[4]}
        stage["out"].append({**group, "takes": found[3].split(), "gives": found[5].split()})
        return
    found = re.fullmatch(r"pass \d+ takes (\S+) gives (\S+)", line)
    if not found:
        raise ValueError(f"no channel: {line}")
    stage["out"].append({"kind": "pass", "takes": [found[1]], "gives": [found[2]]})


def stage_of(line):
    """A stage, as far as its first line goes."""
    if re.fullmatch(r"stage \d+ mscr", line):
        return {"kind": "mscr", "in": [], "out": []}
    found = re.fullmatch(r"stage \d+ (\w+) takes ([\w. ]+?)(?: does (.*))? gives (\S+)", line)
    if not found:
        raise ValueError(f"no stage: {line}")
    does = {"does": found[3]} if found[3] else {}
    return {"kind": found[1], "takes": found[2].split(), "gives": [found[4]], **does}


def screen_of(text):
    """The graph, the plan and the sizes that a screen shows."""
    graph, plan, sizes, part = {"nodes": [], "outputs": []}, {"stages": [], "outputs": []}, {}, None
    for line in text.splitlines():
        if line in ("graph", "plan", "done"):
            part = line
        elif line.startswith("size "):
            sizes[line.split()[1]] = line.split()[2]
        elif line.startswith("output "):
            (graph if part == "graph" else plan)["outputs"].append(output_of(line))
        elif part == "graph":
            graph["nodes"].append(node_of(line))
        elif line.startswith("stage "):
            plan["stages"].append(stage_of(line))
        elif plan["stages"]:
            channel_of(plan["stages"][-1], line)
        else:
            raise ValueError(f"no line of a graph or a plan: {line}")
    if not plan["outputs"]:
        raise ValueError("what is read shows no plan")
    return graph, plan, sizes
