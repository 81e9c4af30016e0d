# The second half: ALFA trades with what rests from the first. `restart` runs it, in the same folder.
ALFA BOOK EUR/USD
ALFA BUY EUR/USD 1.08425 4 DAY
ALFA SELL EUR/USD 1.08400 1 IOC
ALFA SELL EURUSD 1.08400 1 IOC
ALFA SHOW GAMA
END
