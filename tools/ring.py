"""tools/lenthuc-ring as a module, for scripts that ask the library for rings."""

import loading

tool = loading.load("lenthuc-ring")
