// A moment, and what is said of it: by the archive's lookup, or by the public evaluator.

#ifndef STATE_H
#define STATE_H

#include <string>

struct Moment {
    int year;
    int month;
    int day;
    int minute;
};

// The first three in the order of the archive's numbers. The evaluator may also find no interval of any sort from the moment on, or give
// up while it searches.
enum class Kind { Open, Closed, Unknown, NoInterval, GivesUp };

// The comment is the text of its number, empty for none.
struct State {
    Kind kind;
    std::string comment;

    bool operator==(const State &other) const { return kind == other.kind && comment == other.comment; }
};

// What we say where no rule speaks of a moment.
extern const State plain_closed;

std::string text_of(const Moment &moment);
std::string text_of(const State &state);

// Hours and minutes as a line writes them.
std::string clock(int minute);

#endif
