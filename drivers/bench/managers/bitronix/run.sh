#!/bin/sh
# sh run.sh [VALUE]: compiled beside this file, or else compiled on the way
J=/usr/share/java
JARS=$J/btm.jar:$J/mariadb-java-client.jar:$J/geronimo-jta-1.2-spec.jar:$J/geronimo-jms_1.1_spec.jar:$J/slf4j-api.jar:$J/slf4j-nop.jar
if [ -f Transfer.class ]; then
    exec java -Xshare:auto -XX:TieredStopAtLevel=1 -cp $JARS:. Transfer "$@"
fi
exec java -cp $JARS Transfer.java "$@"
