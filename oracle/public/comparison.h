// The records that `moments` writes, taken one by one, and what came of them.

#ifndef COMPARISON_H
#define COMPARISON_H

#include "evaluator.h"
#include "sorts.h"
#include "state.h"

#include <array>
#include <map>
#include <memory>
#include <ostream>
#include <string>
#include <unordered_set>

// How often something was met, in how many lines, and the shortest of them with what was told of it.
struct Met {
    std::size_t times = 0;
    std::size_t lines = 0;
    std::string shortest;
    std::string told;
    // The number of the line that was counted last.
    std::size_t last_line = 0;

    void add(std::size_t number, const std::string &line, const std::string &what);
};

class Comparison
{
public:
    // A line, or a moment of the line before it.
    void take(const std::string &record);

    // Whether lines were compared, and nothing was met that has no known cause.
    bool is_explained() const;
    void print(std::ostream &out) const;

private:
    void take_line(const std::string &line);
    void take_moment(const Moment &moment, const State &ours);
    void count_compared(const Moment &moment);
    // Where a moment belongs at which the two differ.
    Met &met_of(const Asked &asked);

    std::string m_line;
    std::unique_ptr<Evaluator> m_evaluator;
    bool m_compares = false;

    std::size_t m_lines = 0;
    std::map<std::string, Met> m_not_compared;
    Met m_compared;
    Met m_with_weeks;
    Met m_in_weeks_of_another_year;
    std::unordered_set<std::string> m_different_lines;
    std::size_t m_agreeing = 0;
    Met m_given_up;
    Met m_unanswered;
    std::array<Met, sorts.size()> m_of_sort;
    Met m_other;
};

#endif
