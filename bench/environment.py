"""The environment in which the loads run: the C library keeps as many blocks at hand as `simulate` has it keep."""
import os

ENVIRONMENT = {"GLIBC_TUNABLES": "glibc.malloc.tcache_count=1024", **os.environ}
