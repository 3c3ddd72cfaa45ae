"""What a player of RTSP 2.0 (RFC 7826) is made of: messages, a connection, RTP, sound. The tests use it too."""
