"""Sheets as Verilog: what an elaborated netlist of the circuit is, one signal for each leaf.

A leaf is a number, 0 undefined, in as many bits as its greatest constructor needs. Pairs and their
parts, names and constants are gone: they only say which signals go where. An IF is a wire for each
leaf, yes ? then : no ? else : what both agree on, a delay a register for each leaf that takes its
part's value at the edge of the clock, and a feedback the signals of its defining part. A feedback
that does not go through a delay on its way back to itself is not translated: Verilog does not say
that it is the least value.
"""
import re

FLAT_TYPE, PAIR_TYPE = 16, 17
CONSTANT, NAME, PAIR, FIRST, SECOND, LET, FEEDBACK, IF, DELAY = range(32, 41)
WHOLE, CONSTRUCTOR, PAIR_PATTERN = range(48, 51)
NEXT, A, B, C, D = range(1, 6)
YES, NO = "1'b1", "1'b0"


class Sheet:
    """Records of words, the types, and the record of the output's type once it is found."""

    def __init__(self, sheet):
        words = [int.from_bytes(sheet[at:at + 2], "little") for at in range(0, len(sheet), 2)]
        self.records = [words[at:at + 6] for at in range(0, len(words), 6)]
        self.counts, self.pairs = {}, {}
        record = self.records[0][NEXT]
        while record:
            kind, following, a, b = self.records[record][:4]
            if kind == FLAT_TYPE:
                self.counts[record] = [a]
            else:
                self.counts[record] = self.counts[a] + self.counts[b]
                self.pairs[a, b] = record
            record = following
        self.input_type, self.root = self.records[0][A], self.records[0][B]


def joined(parts, sign, neutral, absorbing):
    """An expression of operators of one kind, without the constants."""
    parts = [part for part in parts if part != neutral]
    if absorbing in parts:
        return absorbing
    if len(parts) < 2:
        return parts[0] if parts else neutral
    return "(" + f" {sign} ".join(parts) + ")"


def both(parts):
    return joined(parts, "&", YES, NO)


def either(parts):
    return joined(parts, "|", NO, YES)


class Netlist:
    def __init__(self, sheet):
        self.sheet = Sheet(sheet)
        self.wires = {}      # name: count of constructors and expression
        self.registers = {}  # name: count of constructors, first value and the signal it takes
        self.settled = {}    # leaf of a feedback: the signal that it is
        given = self.sheet.counts[self.sheet.input_type]
        for leaf, count in enumerate(given):
            low = 8 * (len(given) - 1 - leaf)
            self.wires[f"i{leaf}"] = count, f"in[{low + count.bit_length() - 1}:{low}]"
        names = [(self.sheet.input_type, [f"i{leaf}" for leaf in range(len(given))])]
        self.output_type, outputs = self.expression(self.sheet.root, names)
        self.outputs = [self.resolved(output) for output in outputs]
        self.in_leaves, self.out_leaves = len(given), len(outputs)
        self.look_for_loops()

    def leaves(self, record):
        values = []
        while record:
            values.append(self.sheet.records[record][A])
            record = self.sheet.records[record][NEXT]
        return values

    def expression(self, record, names):
        """The type and the signals, one for each leaf."""
        kind, _, a, b, c, d = self.sheet.records[record]
        counts = self.sheet.counts
        if kind == CONSTANT:
            pairs = zip(counts[a], self.leaves(b))
            return a, [f"{count.bit_length()}'d{value}" for count, value in pairs]
        if kind == NAME:
            return names[-1 - a]
        if kind == PAIR:
            first, second = self.expression(a, names), self.expression(b, names)
            return self.sheet.pairs[first[0], second[0]], first[1] + second[1]
        if kind in (FIRST, SECOND):
            of, signals = self.expression(a, names)
            first, second = self.sheet.records[of][A], self.sheet.records[of][B]
            cut = len(counts[first])
            return (first, signals[:cut]) if kind == FIRST else (second, signals[cut:])
        if kind == LET:
            return self.expression(b, names + [self.expression(a, names)])
        if kind == FEEDBACK:
            own = [f"f{record}_{leaf}" for leaf in range(len(counts[a]))]
            within = names + [(a, own)]
            self.settled.update(zip(own, self.expression(b, within)[1]))
            return self.expression(c, within)
        if kind == DELAY:
            own = [f"q{record}_{leaf}" for leaf in range(len(counts[a]))]
            taken = self.expression(c, names)[1]
            for name, count, first, signal in zip(own, counts[a], self.leaves(b), taken):
                self.registers[name] = count, first, signal
            return a, own
        of, tested = self.expression(a, names)
        yes, no = self.chain(d, counts[of], tested)
        branch, then = self.expression(b, names)
        orelse = self.expression(c, names)[1]
        if YES in (yes, no):
            return branch, then if yes == YES else orelse
        if len(then) > 1:
            yes, no = self.named(f"y{record}", yes), self.named(f"n{record}", no)
        own = [f"w{record}_{leaf}" for leaf in range(len(then))]
        for name, count, one, other in zip(own, counts[branch], then, orelse):
            agreed = f"({one} == {other}) ? {one} : {count.bit_length()}'d0"
            if count <= 2:  # each constructor has a bit of its own
                agreed = f"{one} & {other}"
            self.wires[name] = count, f"{yes} ? {one} : {no} ? {other} : {agreed}"
        return branch, own

    def named(self, name, condition):
        """A condition that several leaves ask, once."""
        self.wires[name] = 1, condition
        return name

    def chain(self, record, counts, tested):
        """When the alternatives say yes and when no."""
        yes, no = [], []
        while record:
            one = self.pattern(record, counts, tested)
            yes.append(one[0])
            no.append(one[1])
            record = self.sheet.records[record][NEXT]
        return either(yes), both(no)

    def pattern(self, record, counts, tested):
        kind, _, a, b, _, _ = self.sheet.records[record]
        if kind == WHOLE:
            return YES, NO
        if kind == PAIR_PATTERN:
            cut = self.pattern_leaves(a)
            first = self.chain(a, counts[:cut], tested[:cut])
            second = self.chain(b, counts[cut:], tested[cut:])
            return both([first[0], second[0]]), either([first[1], second[1]])
        signal, count = tested[0], counts[0]
        if "'" in signal:
            value = int(signal.split("d")[1])
            return (YES if value == b else NO), (YES if value not in (0, b) else NO)
        if count == 1:
            return signal, NO
        if count == 2:  # 1 and 2 have a bit each
            return f"{signal}[{b - 1}]", f"{signal}[{2 - b}]"
        width = count.bit_length()
        return f"({signal} == {width}'d{b})", f"(|{signal} & ({signal} != {width}'d{b}))"

    def pattern_leaves(self, record):
        kind, _, a, b, _, _ = self.sheet.records[record]
        if kind == WHOLE:
            return len(self.sheet.counts[a])
        if kind == PAIR_PATTERN:
            return self.pattern_leaves(a) + self.pattern_leaves(b)
        return 1

    def resolved(self, text):
        """A text with the signals that feedbacks settle at."""

        def signal(found):
            name = found.group()
            seen = set()
            while name in self.settled:
                if name in seen:
                    raise ValueError(f"feedback {name} is defined as itself")
                seen.add(name)
                name = self.settled[name]
            return name

        return re.sub(r"\bf\d+_\d+\b", signal, text)

    def look_for_loops(self):
        """Puts the wires in an order in which each stands after those that it takes, where there is
        one."""
        done, order = {}, {}

        def visit(name):
            if name not in self.wires or done.get(name) == 2:
                return
            if done.get(name) == 1:
                raise ValueError(f"a feedback without a delay goes through {name}")
            done[name] = 1
            count, text = self.wires[name]
            text = self.resolved(text)
            for taken in re.findall(r"\b[iwyn]\d+(?:_\d+)?\b", text):
                visit(taken)
            done[name] = 2
            order[name] = count, text

        for name in list(self.wires):
            visit(name)
        self.wires = order

    def module(self, text):
        """The module. `text`: it also puts out its leaves as characters, " 2 1", which are digits
        and cost a simulator that writes them least."""
        lines = ["module sheet(", "    input clk,", f"    input [{8 * self.in_leaves - 1}:0] in,"]
        counts = self.sheet.counts[self.output_type]
        lines.append(f"    output [{8 * self.out_leaves - 1}:0] out" + (",", "")[not text])
        if text:
            lines.append(f"    output [{16 * self.out_leaves - 1}:0] text")
        lines.append(");")
        for name, (count, first, _) in self.registers.items():
            width = count.bit_length()
            lines.append(f"reg [{width - 1}:0] {name} = {width}'d{first};")
        for name, (count, expression) in self.wires.items():
            lines.append(f"wire [{count.bit_length() - 1}:0] {name} = {expression};")
        if self.registers:
            lines.append("always @(posedge clk) begin")
            for name, (_, _, signal) in self.registers.items():
                lines.append(f"    {name} <= {self.resolved(signal)};")
            lines.append("end")
        padded = [f"{8 - count.bit_length()}'d0, {signal}" if count < 128 else signal
                  for count, signal in zip(counts, self.outputs)]
        lines.append("assign out = {" + ",\n    ".join(padded) + "};")
        if text:
            if max(counts) > 9:
                raise ValueError("a leaf of the output is no digit")
            digits = [f'" ", {8 - count.bit_length()}\'d{48 >> count.bit_length()}, {signal}'
                      for count, signal in zip(counts, self.outputs)]
            lines.append("assign text = {" + ",\n    ".join(digits) + "};")
        return "\n".join(lines + ["endmodule", ""])


def test_bench(netlist, most_cycles):
    """For Icarus Verilog: reads stim.bin and writes the listing, with one $write for a line;
    +quiet for none."""
    return f"""module bench;
reg clk = 0;
reg [{8 * netlist.in_leaves - 1}:0] in;
wire [{8 * netlist.out_leaves - 1}:0] out;
wire [{16 * netlist.out_leaves - 1}:0] text;
reg [{8 * netlist.in_leaves - 1}:0] stim [0:{most_cycles - 1}];
integer file, cycles, cycle;
reg quiet;
sheet sheet(.clk(clk), .in(in), .out(out), .text(text));
initial begin
    quiet = $test$plusargs("quiet");
    file = $fopen("stim.bin", "rb");
    cycles = $fread(stim, file) / {netlist.in_leaves};
    if (!quiet) $write("type {netlist.output_type}\\n");
    for (cycle = 0; cycle < cycles; cycle = cycle + 1) begin
        clk = 0;
        in = stim[cycle];
        #1 if (!quiet) $write("%0d:%s\\n", cycle, text);
        clk = 1;
        #1;
    end
    if (!quiet) $write("cycles %0d\\n", cycles);
    $finish(0);
end
endmodule
"""
