// The text of a line: its rules, and what of it the evaluator doesn't read as it is meant.

#ifndef LINE_H
#define LINE_H

#include <string>
#include <vector>

// A month's name, and several months, as patterns.
extern const std::string one_month;
extern const std::string several_months;

// Every match of the pattern replaced.
std::string replaced(const std::string &text, const std::string &pattern, const std::string &by);

// A rule of a line, and what stands before it: nothing, `; ` or `, `.
struct Rule {
    std::string before;
    std::string text;
};

std::vector<Rule> rules_of(const std::string &line);

// Whether the evaluator takes some year for a time of day, hours and minutes without a colon: it doesn't read the line then, or reads years
// such as 1900-2000 as a span.
bool has_year_like_a_time(const std::string &line);

// Whether a rule has two years, neither of them a range, and then months: the evaluator reads one year, three, and ranges, but not this.
bool has_two_years_before_months(const std::string &line);

// Whether some rule has months and weeks: the evaluator may search in vain for a day that lies in both.
bool has_months_and_weeks(const std::string &line);

#endif
