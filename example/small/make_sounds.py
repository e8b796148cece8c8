"""Makes sounds of a few frames, mono, 16 bits, 48,000 frames a second: a.wav of 100 to 800, b.wav of 400 eight times, device-in.wav of 1 to 12."""
import os
import struct
import wave

for name, samples in (("a.wav", range(100, 801, 100)), ("b.wav", [400] * 8), ("device-in.wav", range(1, 13))):
    with wave.open(os.path.join(os.path.dirname(os.path.abspath(__file__)), name), "wb") as file:
        file.setnchannels(1)
        file.setsampwidth(2)
        file.setframerate(48000)
        file.writeframes(b"".join(struct.pack("<h", v) for v in samples))
