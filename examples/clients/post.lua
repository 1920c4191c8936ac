-- For wrk: a batch of none by POST. The key comes from the environment.
wrk.method = "POST"
wrk.body = "[]"
wrk.headers["x-ledger-key"] = os.getenv("LEDGER_KEY")
