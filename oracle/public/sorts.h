// The known sorts of difference. Each is told by a change to the line that leaves what the line says at the moment as it is: a difference
// is of a sort where the evaluator agrees once the line is changed so.

#ifndef SORTS_H
#define SORTS_H

#include "state.h"

#include <array>
#include <optional>
#include <string>

// A line, a moment, and both answers.
struct Asked {
    std::string line;
    Moment moment;
    State ours;
    State theirs;
};

struct Sort {
    const char *name;
    // In words, what the change is.
    const char *change;
    // The line changed, or as it is where there is nothing to change.
    std::string (*changed)(const Asked &asked);
};

extern const std::array<Sort, 7> sorts;

// What the evaluator says when it is asked for each rule alone, for where it gives up on the line; nothing where it gives up on a rule alone too
// and no other one speaks of the moment.
std::optional<State> told_by_rules(const Asked &asked);

// The place of the sort whose change makes the evaluator agree. Changes are made one after the other, and those before it stay.
std::optional<std::size_t> sort_of(Asked asked);

Asked with_all_changes(Asked asked);

bool gives_up_on_months_and_weeks(const Asked &asked);

// Whether nothing can be compared: the evaluator gives up, on a rule of months and weeks alone too. Where we don't say Closed that isn't taken for
// granted, since it finds at once what covers the moment itself.
bool is_unanswered(const Asked &asked);

#endif
