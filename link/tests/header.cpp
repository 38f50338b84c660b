// The header as C++ takes it. That the reports have a fixed type makes every number of an answer one of its values, also one that it does not
// name. tests/link compiles this, and links nothing.
#include "tankcurve.h"

#include <type_traits>

static_assert(std::is_same<std::underlying_type<tankcurve_report>::type, int>::value, "a number over 15 would be undefined");

bool unknown();

bool unknown()
{
    return tankcurve_word(tankcurve_number(255)) == tankcurve_word(tankcurve_number(254)) && !tankcurve_detail(255);
}
