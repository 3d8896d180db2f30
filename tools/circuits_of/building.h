// Circuits that are built output by output: a gate or two over what is there, or a choice by an input
// between two smaller functions (Kwan, Reducing the Gate Count of Bitslice DES).
#include "targets.h"

// How many first circuits the smallest is taken of.
const int FIRSTS = 50;

// The order in which functions are split by inputs. All functions of a circuit are split in one
// order: so they have more gates in common.
int turn[INPUTS] = {0, 1, 2, 3, 4, 5};

// The place of a function that agrees with the table where `care` says; gates are added for it.
// It is -1 where that would take more places than `most`.
int build(Circuit& circuit, Table table, Table care, int most);

// The same, from a place by which it is split: a part of the function that is known there costs a
// gate, and a choice between two functions costs two.
int split(Circuit& circuit, Table table, Table care, int most, int by) {
    Table on = circuit.tables[by];
    int kind = -1;
    if ((table & care & ~on) == 0) kind = And, care &= on;
    else if ((on & care & ~table) == 0) kind = Or, care &= ~on;
    else if ((table & care & on) == 0) kind = AndNot, care &= ~on;
    else if (below(8) == 0) kind = Xor, table ^= on;
    if (kind >= 0) {
        int rest = build(circuit, table, care, most - 1);
        return rest < 0 ? rest : add(circuit, kind, rest, by);
    }
    bool by_or = below(2);
    Table begun = care & (by_or ? on : ~on);
    int here = build(circuit, by_or ? ~table : table, begun, most - 2);
    if (here < 0) return here;
    int rest = build(circuit, table ^ circuit.tables[here], care & ~begun, most - 2);
    return rest < 0 ? rest : add(circuit, Xor, here, add(circuit, by_or ? Or : And, rest, by));
}

// The first input, in the order of turns, that tells apart two inputs at which the function matters.
int splitter(Table care) {
    for (int input : turn) {
        Table on = inputs[input] & care;
        if (on != 0 && on != care) return input;
    }
    return 0;
}

int build(Circuit& circuit, Table table, Table care, int most) {
    Target target;
    target.table = table, target.care = care, target.count = circuit.places;
    for (int i = 0; i < circuit.places; i++) {
        target.usable[i] = (uint8_t)i;
        if (gives_it(target, circuit.tables[i])) return i;
    }
    if (circuit.places + 1 > most) return -1;
    Draw<Gate> one = one_gate(circuit, target, {Not, INNER, INNER});
    if (one.offered) return add(circuit, one.drawn.kind, one.drawn.left, one.drawn.right);
    if (circuit.places + 2 > most) return -1;
    Draw<Two> two = two_gates(circuit, target);
    if (two.offered) return add_two(circuit, two.drawn);
    if (circuit.places + 3 > most) return -1;
    return split(circuit, table, care, most, splitter(care));
}

bool build_all(Circuit& circuit) {
    clear(circuit);
    std::shuffle(turn, turn + INPUTS, randomness);
    int order[OUTPUTS] = {0, 1, 2, 3};
    std::shuffle(order, order + OUTPUTS, randomness);
    for (int output : order) {
        int place = build(circuit, wanted[output], ~(Table)0, MOST - 1);
        if (place < 0) return false;
        circuit.outputs[output] = (uint8_t)place;
    }
    return true;
}

// The smallest of some first circuits.
Circuit first_circuit() {
    Circuit best, built, ordered;
    best.places = MOST;
    for (int i = 0; i < FIRSTS || best.places == MOST; i++) {
        if (!build_all(built)) continue;
        order(built, ordered);
        if (ordered.places < best.places) best = ordered;
    }
    return best;
}
