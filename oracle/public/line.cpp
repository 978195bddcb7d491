// Patterns in the text of a line.

#include "line.h"

#include <algorithm>
#include <regex>

const std::string one_month = "[A-Z][a-z]{2}";
const std::string several_months = one_month + "(-" + one_month + ")?,";

std::string replaced(const std::string &text, const std::string &pattern, const std::string &by)
{
    return std::regex_replace(text, std::regex(pattern), by);
}

std::vector<Rule> rules_of(const std::string &line)
{
    std::vector<Rule> rules;
    std::size_t before = 0;

    for (std::size_t start = 0, end; start < line.size(); start = end + before) {
        end = std::min({line.find("; ", start), line.find(", ", start), line.size()});
        rules.push_back({line.substr(start - before, before), line.substr(start, end - start)});
        before = 2;
    }
    return rules;
}

bool has_year_like_a_time(const std::string &line)
{
    static const std::regex any_year("(?:^|[ ,-])(\\d{4})(?=[ ,-])");

    for (std::sregex_iterator found(line.begin(), line.end(), any_year), end; found != end; ++found) {
        const int year = std::stoi((*found)[1]);
        if (year % 100 < 60 && (year < 2001 || year > 2099)) {
            return true;
        }
    }
    return false;
}

bool has_two_years_before_months(const std::string &line)
{
    static const std::regex two_years_before_months("(^|[;,] )\\d{4},\\d{4} " + one_month);
    return std::regex_search(line, two_years_before_months);
}

bool has_months_and_weeks(const std::string &line)
{
    static const std::regex months_and_weeks(one_month + " week ");
    return std::regex_search(line, months_and_weeks);
}
