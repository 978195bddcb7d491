// Records read, differences counted, and the counts printed.

#include "comparison.h"

#include "line.h"

#include <QDate>

#include <sstream>
#include <stdexcept>

void Met::add(std::size_t number, const std::string &line, const std::string &what)
{
    ++times;
    lines += number != last_line;
    last_line = number;

    if (times == 1 || line.size() < shortest.size()) {
        shortest = line;
        told = what;
    }
}

namespace {

std::string told(const Asked &asked)
{
    return "at " + text_of(asked.moment) + ": ours " + text_of(asked.ours) + ", theirs " + text_of(asked.theirs);
}

}

void Comparison::take(const std::string &record)
{
    if (record.compare(0, 2, "L ") == 0) {
        return take_line(record.substr(2));
    }

    std::istringstream fields(record);
    std::string head;
    Moment moment;
    int kind, comment;
    fields >> head >> moment.year >> moment.month >> moment.day >> moment.minute >> kind >> comment;

    if (!fields || head != "M" || !m_evaluator || kind < 0 || kind > 2) {
        throw std::runtime_error("no record: " + record);
    }
    take_moment(moment, {static_cast<Kind>(kind), comment == 0 ? "" : std::to_string(comment)});
}

void Comparison::take_line(const std::string &line)
{
    ++m_lines;
    m_line = line;
    m_evaluator = std::make_unique<Evaluator>(line);
    m_compares = false;

    if (line.empty()) {
        m_not_compared[m_evaluator->error() + ", no rules"].add(m_lines, line, "");
    } else if (has_year_like_a_time(line)) {
        m_not_compared[m_evaluator->error() + ", a year that it takes for a time of day"].add(m_lines, line, "");
    } else if (has_two_years_before_months(line)) {
        m_not_compared[m_evaluator->error() + ", two years before months"].add(m_lines, line, "");
    } else if (!m_evaluator->reads()) {
        m_other.add(m_lines, line, m_evaluator->error());
    } else {
        m_compares = true;
    }
}

void Comparison::take_moment(const Moment &moment, const State &ours)
{
    if (!m_compares) {
        return;
    }

    const Asked asked = {m_line, moment, ours, m_evaluator->at(moment)};
    if (asked.theirs == ours) {
        ++m_agreeing;
        return count_compared(moment);
    }

    Met &met = met_of(asked);
    met.add(m_lines, m_line, told(asked));
    if (&met != &m_unanswered) {
        count_compared(moment);
    }
}

Met &Comparison::met_of(const Asked &asked)
{
    if (is_unanswered(asked)) {
        return m_unanswered;
    }
    if (gives_up_on_months_and_weeks(asked) && told_by_rules(asked) == asked.ours) {
        return m_given_up;
    }
    if (const auto sort = sort_of(asked)) {
        return m_of_sort[*sort];
    }
    return is_unanswered(with_all_changes(asked)) ? m_unanswered : m_other;
}

void Comparison::count_compared(const Moment &moment)
{
    m_compared.add(m_lines, m_line, "");
    m_different_lines.insert(m_line);

    if (m_line.find("week ") == std::string::npos) {
        return;
    }
    m_with_weeks.add(m_lines, m_line, "");

    int year_of_week;
    QDate(moment.year, moment.month, moment.day).weekNumber(&year_of_week);
    if (year_of_week != moment.year) {
        m_in_weeks_of_another_year.add(m_lines, m_line, "");
    }
}

bool Comparison::is_explained() const
{
    return m_compared.lines > 0 && m_other.times == 0;
}

namespace {

void print_met(std::ostream &out, const std::string &name, const Met &met)
{
    out << "  " << name << ": " << met.times << " in " << met.lines << " lines\n";
    if (met.times > 0) {
        out << "    " << met.shortest << "\n    " << met.told << "\n";
    }
}

}

void Comparison::print(std::ostream &out) const
{
    out << "lines given: " << m_lines << "\nnot compared, by its own error and by what stands in the line\n";
    for (const auto &[reason, met] : m_not_compared) {
        out << "  " << reason << ": " << met.lines << " lines\n    " << (met.shortest.empty() ? "(empty)" : met.shortest) << "\n";
    }

    out << "lines compared: " << m_compared.lines << ", " << m_different_lines.size() << " different ones, " << m_with_weeks.lines
        << " with weeks\nmoments compared: " << m_compared.times << ", " << m_with_weeks.times << " in lines with weeks, "
        << m_in_weeks_of_another_year.times << " of these on days whose week counts in another year\nagreeing: " << m_agreeing
        << "\nmoments not compared\n";
    print_met(out, "it gives up, on a rule of months and weeks alone too, where we say Closed", m_unanswered);

    out << "not agreeing, and the change after which they agree\n";
    print_met(out, "it gives up, in a line with a rule of months and weeks (each rule is asked alone)", m_given_up);

    for (std::size_t place = 0; place < sorts.size(); ++place) {
        print_met(out, std::string(sorts[place].name) + " (" + sorts[place].change + ")", m_of_sort[place]);
    }
    print_met(out, "other", m_other);
}
