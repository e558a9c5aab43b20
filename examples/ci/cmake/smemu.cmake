# A toolchain file: programs are made by Clang for the emulator, and CTest runs them by it.
#
#     cmake -DCMAKE_TOOLCHAIN_FILE=smemu.cmake ..
#
# SMEMU_COMMAND is the command, where it is not the one of this repository.
set(CMAKE_SYSTEM_NAME Generic)
set(CMAKE_SYSTEM_PROCESSOR aarch64)
foreach(language C ASM)
    set(CMAKE_${language}_COMPILER clang-19)
    set(CMAKE_${language}_COMPILER_TARGET aarch64-linux-gnu)
    set(CMAKE_${language}_FLAGS_INIT "-ffreestanding -fno-pic")
endforeach()
set(CMAKE_EXE_LINKER_FLAGS_INIT "-nostdlib -static -fuse-ld=lld -Wl,-z,max-page-size=4096")
# CMake's own programs have a main and no entry, so they are not linked
set(CMAKE_TRY_COMPILE_TARGET_TYPE STATIC_LIBRARY)
get_filename_component(SMEMU_COMMAND "${CMAKE_CURRENT_LIST_DIR}/../../../smemu" ABSOLUTE CACHE)
set(CMAKE_CROSSCOMPILING_EMULATOR "${SMEMU_COMMAND};exec")
