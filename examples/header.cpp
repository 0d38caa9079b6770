// The header in C++: it compiles, and what takes an answer apart is usable.
#include "yerkhulbaz.h"

int main() {
    return yk_refusal(YK_ACCEPTED);
}
