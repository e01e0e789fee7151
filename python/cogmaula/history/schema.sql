-- The tables of a market's history, for SQLite and PostgreSQL alike. docs/OPERATE.md has a query.
-- Times are seconds since 1970-01-01 UTC, powers watts, and prices price units. NULL is what no message says. Each row is written once,
-- under its key.
--
-- sessions:  those of the auctioneer, with the basis; the view clearings has its clearings
-- bids:      demands is a JSON list, NULL if the child left
-- rebids:    the second bid of a number, as a device that lies sends it; the first one is in bids
-- prices:    what a parent gave a child; number is that of the bid that it answers, at is when the market cleared
-- setpoints, fallbacks, lapses, states: what devices and parents said; of each node of a site also that the site is down.
--            at is by the sender's clock, of a last will by the history's: the broker has had it from the connection's begin on
-- limits:    answers about limits that change
-- measured:  what a device takes, as its control says at PREFIX/DEVICE/measured; the market does not go by it
CREATE TABLE IF NOT EXISTS history (version BIGINT PRIMARY KEY);
CREATE TABLE IF NOT EXISTS sessions (
    session TEXT PRIMARY KEY, begun DOUBLE PRECISION NOT NULL, least BIGINT NOT NULL, greatest BIGINT NOT NULL, steps BIGINT NOT NULL
);
CREATE TABLE IF NOT EXISTS bids (
    session TEXT, parent TEXT, child BIGINT, number BIGINT, at DOUBLE PRECISION, demands TEXT,
    PRIMARY KEY (session, parent, child, number)
);
CREATE TABLE IF NOT EXISTS rebids (
    session TEXT, parent TEXT, child BIGINT, number BIGINT, at DOUBLE PRECISION, demands TEXT,
    PRIMARY KEY (session, parent, child, number)
);
CREATE TABLE IF NOT EXISTS prices (
    session TEXT, parent TEXT, child BIGINT, clearing BIGINT, number BIGINT NOT NULL, step BIGINT NOT NULL, price BIGINT NOT NULL,
    at DOUBLE PRECISION, PRIMARY KEY (session, parent, child, clearing)
);
CREATE TABLE IF NOT EXISTS setpoints (
    session TEXT, device TEXT, clearing BIGINT, number BIGINT, step BIGINT NOT NULL, price BIGINT NOT NULL, power BIGINT NOT NULL,
    at DOUBLE PRECISION, PRIMARY KEY (session, device, clearing, number)
);
CREATE TABLE IF NOT EXISTS fallbacks (
    session TEXT, device TEXT, since DOUBLE PRECISION, power BIGINT NOT NULL, why TEXT NOT NULL, PRIMARY KEY (session, device, since)
);
CREATE TABLE IF NOT EXISTS lapses (
    session TEXT, parent TEXT, child BIGINT, number BIGINT, at DOUBLE PRECISION NOT NULL, why TEXT NOT NULL,
    PRIMARY KEY (session, parent, child, number)
);
CREATE TABLE IF NOT EXISTS limits (
    session TEXT, relay TEXT, at DOUBLE PRECISION, state TEXT NOT NULL, floor BIGINT NOT NULL, ceiling BIGINT NOT NULL,
    until DOUBLE PRECISION, reference TEXT, clearing BIGINT, why TEXT NOT NULL, PRIMARY KEY (session, relay, at)
);
CREATE TABLE IF NOT EXISTS states (
    node TEXT, run TEXT, at DOUBLE PRECISION, state TEXT, sort TEXT, parent TEXT, child BIGINT, floor BIGINT, ceiling BIGINT,
    alarm TEXT NOT NULL, silent DOUBLE PRECISION, why TEXT NOT NULL, session TEXT NOT NULL, PRIMARY KEY (node, run, at, state)
);
CREATE TABLE IF NOT EXISTS measured (device TEXT, at DOUBLE PRECISION, power BIGINT NOT NULL, PRIMARY KEY (device, at));
CREATE INDEX IF NOT EXISTS bids_gone ON bids (at) WHERE demands IS NULL;
CREATE INDEX IF NOT EXISTS setpoints_at ON setpoints (at);
CREATE INDEX IF NOT EXISTS prices_at ON prices (at);
CREATE INDEX IF NOT EXISTS measured_at ON measured (at);
DROP VIEW IF EXISTS clearings;
CREATE VIEW clearings AS
    SELECT session, clearing, min(price) AS price, min(step) AS step, min(at) AS at FROM prices
    WHERE parent IN (SELECT node FROM states WHERE sort = 'auctioneer') GROUP BY session, clearing;
