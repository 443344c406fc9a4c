# A toolchain for x86-64 on any machine, Arm among them: Rattle's archives are x86-64
# everywhere, so what links them is too.
# Debian has the compiler as g++-x86-64-linux-gnu. CHICKVESSEL_EMULATOR is what programs are run through
# where the processor is another one, words with semicolons between them: add_custom_command and ctest
# use it for programs of the project.
set(CMAKE_SYSTEM_NAME Linux)
set(CMAKE_SYSTEM_PROCESSOR x86_64)
set(CMAKE_C_COMPILER x86_64-linux-gnu-gcc)
set(CMAKE_CXX_COMPILER x86_64-linux-gnu-g++)
set(CHICKVESSEL_EMULATOR "" CACHE STRING "What x86-64 programs are run through")
set(CMAKE_CROSSCOMPILING_EMULATOR "${CHICKVESSEL_EMULATOR}")
# try_compile reads this file again, without the cache.
list(APPEND CMAKE_TRY_COMPILE_PLATFORM_VARIABLES CHICKVESSEL_EMULATOR)
