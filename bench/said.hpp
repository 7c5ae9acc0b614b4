// What a command prints, read to its end.
#pragma once
#include <cstdio>
#include <cstdlib>
#include <string>

inline std::string said_by(const std::string &command) {
    FILE *pipe = popen(command.c_str(), "r");
    if (!pipe)
        std::abort();
    std::string said;
    char part[64];
    for (size_t n; (n = std::fread(part, 1, sizeof part, pipe)) > 0;)
        said.append(part, n);
    if (pclose(pipe))
        std::abort();
    return said;
}
