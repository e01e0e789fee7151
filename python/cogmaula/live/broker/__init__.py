"""Connections to an MQTT 5 broker, and who may do what there."""
