#!/bin/sh
# Asks an instrument who it is and for two voltages, with lxi-tools: identify.sh [ADDRESS]
# Each call of lxi is a session of its own. Its port mapper has to answer at port 111.
set -eu
address=${1:-127.0.0.1}

# What others left: settings and errors. Without a question mark there is no answer, and lxi waits
# for none.
lxi scpi --address "$address" '*RST;*CLS'

lxi scpi --address "$address" '*IDN?'
lxi scpi --address "$address" 'SYST:VERS?'
lxi scpi --address "$address" 'MEAS:VOLT? (@1:2)'
lxi scpi --address "$address" 'CALC:LIM:UPP 2.5;STAT ON'
lxi scpi --address "$address" 'CALC:LIM:UPP?;STAT?'
lxi scpi --address "$address" 'SYST:ERR?'
