%T = type { ptr addrspace(1) }
