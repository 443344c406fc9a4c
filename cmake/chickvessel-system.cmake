# Sets chickvessel_wrong_system to a sentence if the build is for a system that cannot link the archives, and
# else to nothing.
set(chickvessel_wrong_system "")
if(NOT CMAKE_SYSTEM_NAME STREQUAL "Linux" OR NOT CMAKE_SYSTEM_PROCESSOR MATCHES "^(x86_64|AMD64)$"
   OR "${CMAKE_SIZEOF_VOID_P}" STREQUAL "4")
    string(CONCAT chickvessel_wrong_system
           "the archives are for Linux on x86-64 (ELF, System V calls), "
           "and this build is for ${CMAKE_SYSTEM_NAME} on ${CMAKE_SYSTEM_PROCESSOR}")
    if("${CMAKE_SIZEOF_VOID_P}" STREQUAL "4")
        string(APPEND chickvessel_wrong_system " with 32-bit pointers")
    endif()
    string(APPEND chickvessel_wrong_system
           ". On Linux with another processor, "
           "-DCMAKE_TOOLCHAIN_FILE=${CMAKE_CURRENT_LIST_DIR}/x86-64.cmake builds for x86-64.")
endif()
