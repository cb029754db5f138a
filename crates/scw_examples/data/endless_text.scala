object Main {
  def main(args: Array[String]): Unit = {
    println("growing");
    var s: String = "a";
    while (true) s = s + s
  }
}
