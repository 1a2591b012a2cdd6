"""What the two browsers of this folder share."""
import base64


class Headless:
    """A browser without a window: `process`, the folder `profile`, and `shot`, which gives the page as a picture in base 64."""

    def picture(self, path):
        with open(path, "wb") as file:
            file.write(base64.b64decode(self.shot()))

    def close(self):
        self.process.terminate()
        self.process.wait()
        self.profile.cleanup()
