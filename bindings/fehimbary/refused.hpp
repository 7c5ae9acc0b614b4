// What a refused call throws.
#ifndef FEHIMBARY_REFUSED_HPP
#define FEHIMBARY_REFUSED_HPP

#include "../fehimbary.h"

#include <cstddef>
#include <stdexcept>
#include <string>

namespace fehimbary {

// The name of a status, as "FB_INDEX".
inline const char *name_of(fb_status status) noexcept { return fb_status_text(status); }

// Why a call was refused. `what()` is the status's name, and behind it what was asked of how many bits.
class Refused : public std::logic_error {
  public:
    explicit Refused(fb_status said) : std::logic_error(name_of(said)), why(said) {}
    Refused(fb_status said, const std::string &what) : std::logic_error(name_of(said) + (": " + what)), why(said) {}
    fb_status status() const noexcept { return why; }

  private:
    fb_status why;
};

// These stand out of line, so that a call that may be refused is as short as one that may not.
[[noreturn, gnu::cold, gnu::noinline]] inline void refuse(fb_status status, std::size_t len) {
    throw Refused(status, "of " + std::to_string(len) + " bits");
}
[[noreturn, gnu::cold, gnu::noinline]] inline void refuse(fb_status status, std::size_t number, std::size_t len) {
    throw Refused(status, std::to_string(number) + " of " + std::to_string(len) + " bits");
}
[[noreturn, gnu::cold, gnu::noinline]] inline void refuse(fb_status status, std::size_t from, std::size_t to, std::size_t len) {
    throw Refused(status, std::to_string(from) + " to " + std::to_string(to) + " of " + std::to_string(len) + " bits");
}

} // namespace fehimbary

#endif
