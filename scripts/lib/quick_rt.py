"""The toolchain's command rt, with its words as arguments, where each library is asked once for what it is made from (project.each_library_once).

scripts/build proves and compiles the program by it, which so takes minutes less. The gate is `rt ci` itself."""
import os
import sys

sys.dont_write_bytecode = True
sys.path.insert(0, os.path.dirname(os.path.realpath(__file__)))
import project

if __name__ == "__main__":
    sys.exit(project.toolchain().main(sys.argv[1:]))
