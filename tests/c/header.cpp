// The header from C++17: every function's type is compared as a type, and its address is linked with the archive.
// Runs a few calls.
#include "arduinos.h"

#include <array>
#include <cstddef>
#include <cstdint>
#include <cstdio>
#include <type_traits>

namespace {

using Bytes = std::uint8_t *;
using Const = const std::uint8_t *;
using Size = std::size_t;
using Count = std::uint32_t;

// The function itself if it has exactly that type; another type does not compile.
template <typename... Parameters, typename Function> constexpr auto exactly(Function *function)
{
    static_assert(std::is_same_v<Function, std::int32_t(Parameters...)>, "the header declares another type");
    return function;
}

template <typename Function> bool linked(Function *function)
{
    Function *volatile address = function;
    return address != nullptr;
}

bool all_linked()
{
    return linked(exactly<Bytes, Size, Bytes, Size>(arduinos_format)) &&
           linked(exactly<Bytes, Size>(arduinos_boot)) &&
           linked(exactly<Bytes, Size, Const, Size, Const, Size>(arduinos_store)) &&
           linked(exactly<Const, Size, Const, Size, Bytes, Size>(arduinos_retrieve)) &&
           linked(exactly<Bytes, Size, Const, Size, Const, Size>(arduinos_erase)) &&
           linked(exactly<Const, Size, Bytes, Size>(arduinos_files)) &&
           linked(exactly<Const, Size>(arduinos_free_space)) &&
           linked(exactly<Const, Size, Bytes, Size, Const, Size>(arduinos_run)) &&
           linked(exactly<Const, Size, Bytes, Size, Count>(arduinos_suspend)) &&
           linked(exactly<Const, Size, Bytes, Size, Count>(arduinos_resume)) &&
           linked(exactly<Const, Size, Bytes, Size, Count>(arduinos_kill)) &&
           linked(exactly<Const, Size, Bytes, Size, Count, Count>(arduinos_share)) &&
           linked(exactly<Const, Size, Const, Size, Bytes, Size>(arduinos_list)) &&
           linked(exactly<Bytes, Size, Bytes, Size, Count, Count, Bytes, Size>(arduinos_turn)) &&
           linked(exactly<Bytes, Size, Bytes, Size, Count, Bytes, Size>(arduinos_round));
}

} // namespace

int main()
{
    std::array<std::uint8_t, ARDUINOS_DISC_SIZE> disc{};
    std::array<std::uint8_t, ARDUINOS_AREA_SIZE> area{};
    const auto formatted = arduinos_format(disc.data(), disc.size(), area.data(), area.size());
    const auto killed = arduinos_kill(disc.data(), disc.size(), area.data(), area.size(), 1);
    if (!all_linked() || formatted != 0 || killed != ARDUINOS_NO_SUCH_PROCESS) {
        std::puts("header: a function has no address, or a call gave another number");
        return 1;
    }
    return 0;
}
