"""Tests of the running balancer, `stickylb run`, from outside: over sockets of this machine, by what clients, servers and operators see.

Expected bytes are worked from the rules (docs/CONFIGURATION.md, docs/OPERATING.md, docs/DECISIONS.md) and never taken from the program. `farms` starts
balancers, `origins` are the servers behind them, `cases` keeps the list of tests. Start at `running`.
"""
