#compdef market
# Completes the commands of market and its pages of help, for zsh.
local -a commands topics
commands=(
    'run:the price and the powers of each phase of a cluster file'
    'trace:the same, and each move of the run'
    'bill:what each device pays, takes and gives'
    'ask:the price at which a cluster takes or delivers so much'
    'check:whether a trace is a run of its cluster file'
    'serve:the auctioneer alone, over a stream of bids'
    'free:the same as run, on threads that share no lock'
    'demo:a made cluster of SIZE devices'
    'relay:a concentrator of a market across machines'
    'auctioneer:the auctioneer of a market across machines'
    'device:the agent of one device of a market across machines'
    'help:what the commands are, and what a refusal means'
    'version:the version'
    '--help:what the commands are'
    '--version:the version'
)
topics=('refusals:what each refusal means' 'status:what an exit status means')
case "$CURRENT:$words[2]" in
    2:*) _describe command commands ;;
    3:help) _describe topic topics ;;
esac
