# The tests of ../c, and the rows of the tables through library and program. They need Python, which turns the tables into C.
find_package(Python3 REQUIRED COMPONENTS Interpreter)
find_package(Threads)
set(root "${CMAKE_CURRENT_SOURCE_DIR}/..")
set(made "${CMAKE_CURRENT_BINARY_DIR}/tables")
file(MAKE_DIRECTORY "${made}")

file(GLOB tables "${root}/crates/cbor_reader_tests/src/tests/*_table.rt")
add_custom_command(OUTPUT "${made}/rows.h" DEPENDS "${root}/c/rows.py" ${tables}
  COMMAND Python3::Interpreter "${root}/c/rows.py" ${tables} > "${made}/rows.h")
add_custom_command(OUTPUT "${made}/events.h" DEPENDS "${root}/c/events.py"
  COMMAND Python3::Interpreter "${root}/c/events.py" "${root}/crates/cbor_events_tests/src/tests" > "${made}/events.h")
add_custom_target(tables DEPENDS "${made}/rows.h" "${made}/events.h")

# A program of ../c or ../examples, linked statically and to the shared library.
function(build_program name)
  file(GLOB source "${root}/c/${name}.c" "${root}/examples/${name}.c")
  foreach(library static naltvigo)
    add_executable(${name}_${library} "${source}")
    add_dependencies(${name}_${library} tables)
    set_target_properties(${name}_${library} PROPERTIES C_STANDARD 99 C_EXTENSIONS OFF)
    target_compile_definitions(${name}_${library} PRIVATE _POSIX_C_SOURCE=200112L __USE_MINGW_ANSI_STDIO=1)
    target_include_directories(${name}_${library} PRIVATE "${made}")
    target_link_libraries(${name}_${library} naltvigo::${library} ${ARGN})
  endforeach()
endfunction()

# Such a program, as a test, with the words it is given.
function(test_program name words)
  build_program(${name} ${ARGN})
  foreach(library static naltvigo)
    add_test(NAME ${name}_${library} COMMAND ${name}_${library} ${words})
  endforeach()
endfunction()

foreach(name test null exports explained items writer cursor checker machine)
  test_program(${name} "")
endforeach()
foreach(name round_trips damaged)
  test_program(${name} "1;300")
endforeach()
if(CMAKE_USE_PTHREADS_INIT)
  test_program(threads "" Threads::Threads)
  test_program(stack "" Threads::Threads)
endif()
test_program(cwt "")
set_tests_properties(cwt_static cwt_naltvigo PROPERTIES PASS_REGULAR_EXPRESSION "expires 1444064944, issued by coap://as.example.com")

if(TARGET cborc AND NOT CMAKE_CROSSCOMPILING)
  add_test(NAME program COMMAND Python3::Interpreter "${root}/scripts/run_program.py" $<TARGET_FILE:cborc>)
endif()
