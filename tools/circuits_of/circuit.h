// Circuits of gates over six inputs. Places are numbered from 0: the inputs, then the gates in their
// order. A table has a bit for each of the 64 inputs.
#include <algorithm>
#include <cstdint>
#include <random>

typedef uint64_t Table;
enum Kind { And, Or, Xor, AndNot, Not };
const int INPUTS = 6, OUTPUTS = 4, MOST = 200;

struct Gate {
    uint8_t kind, left, right;
};

struct Circuit {
    int places;  // of the inputs and the gates
    uint8_t outputs[OUTPUTS];
    Gate gates[MOST];  // by their places
    Table tables[MOST];
    int size() const { return places - INPUTS; }
};

Table inputs[INPUTS], wanted[OUTPUTS];

std::mt19937_64 randomness;

int below(int count) { return (int)((randomness() >> 32) * (uint64_t)count >> 32); }

Table gives(int kind, Table left, Table right) {
    switch (kind) {
    case And: return left & right;
    case Or: return left | right;
    case Xor: return left ^ right;
    case AndNot: return left & ~right;
    default: return ~left;
    }
}

void clear(Circuit& circuit) {
    circuit.places = INPUTS;
    std::copy(inputs, inputs + INPUTS, circuit.tables);
}

int add(Circuit& circuit, int kind, int left, int right) {
    int place = circuit.places;
    if (place + 1 < MOST) circuit.places++;
    circuit.gates[place] = {(uint8_t)kind, (uint8_t)left, (uint8_t)right};
    circuit.tables[place] = gives(kind, circuit.tables[left], circuit.tables[right]);
    return place;
}

int placed(const Circuit& from, Circuit& to, int* places, int place) {
    if (places[place] >= 0) return places[place];
    const Gate& gate = from.gates[place];
    int left = placed(from, to, places, gate.left);
    int right = gate.kind == Not ? left : placed(from, to, places, gate.right);
    return places[place] = add(to, gate.kind, left, right);
}

// The circuit with its gates in an order that computes them, and none that no output needs.
void order(const Circuit& from, Circuit& to) {
    clear(to);
    int places[MOST];
    for (int i = 0; i < from.places; i++) places[i] = i < INPUTS ? i : -1;
    for (int i = 0; i < OUTPUTS; i++)
        to.outputs[i] = (uint8_t)placed(from, to, places, from.outputs[i]);
}
