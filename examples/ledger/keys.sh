# The keys of the two tenants of ledger.db. They stand here for everybody, so serve nothing with them.
north_key=0123456789abcdef0123456789abcdef0123456789abcdef0123456789abcdef
south_key=fedcba9876543210fedcba9876543210fedcba9876543210fedcba9876543210
