"""What hosts.py holds, by topic.

processes    processes, side by side, and how much of what is expected of them holds
compiling    hosts in C and C++ by the compilers, with all warnings
languages    the hosts of examples/ in each language
tables       the modules and calls of the tables, and mutants
answers      what a host answers, beside what is wanted
plug_ins     hosts of plug-ins
workers      the worker, and the hosts that set it a deadline
exchanges    hosts that a plug-in asks for what it wants
clusters     pieces of work on the workers of a Dask cluster
packages     the tests of the packages and of the addon for Node
header       gate.h, and what the library exports
wrapper      gate.hpp
interface    each function of gate.h, also looked at by gate_debug.h, and with refused memory
"""
