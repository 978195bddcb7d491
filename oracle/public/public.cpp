// Holds the archive's lookups against KOpeningHours: reads the lines and moments that `moments` of oracle/scale writes, asks the evaluator
// for each line at each moment, and prints what came of it. Exit status 1 where there is a difference of no known sort.

#include "comparison.h"

#include <exception>
#include <iostream>

int main()
{
    Evaluator::prepare();
    Comparison comparison;

    try {
        for (std::string record; std::getline(std::cin, record);) {
            comparison.take(record);
        }
    } catch (const std::exception &error) {
        std::cerr << error.what() << "\n";
        return 2;
    }

    comparison.print(std::cout);
    return comparison.is_explained() ? 0 : 1;
}
